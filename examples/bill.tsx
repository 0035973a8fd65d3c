/*
 * @jsxImportSource https://example.org/jsx
 */
import type { FC } from "npm:preact@10";
import { Money } from "./money.tsx";

export const Bill: FC<{ of: import("./contract.ts").Contract }> = ({ of }) => (
  <section>
    {of.lines.map((l) => <Money key={l.id} value={l.sum} />)}
  </section>
);
export const load = () => import("./archive.tsx");
