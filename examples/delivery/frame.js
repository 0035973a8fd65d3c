/** Splits a wM-Bus frame into its header and its body. */
export function split(bytes) {
  return { header: bytes.slice(0, 10), body: bytes.slice(10) };
}
