/** @jsxImportSource npm:preact@10 */
/* @jsxImportSourceTypes npm:@types/preact */
import { render } from "npm:preact@10";

/** @type {import("./series.js").Series[]} */
const series = [];
const Chart = (props) => <figure title="Verbrauch — 24 h">{props.children /* no text */}</figure>;

export async function show(id) {
  const { Table } = await import(`./tables/${id}.jsx`);
  render(<Chart><Table rows={series} /></Chart>, document.body);
}
