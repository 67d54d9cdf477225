// The time of d3's tree: reads the trees of `time_layout trees`, and prints for each its shape and the nanoseconds of a layout, first
// with the hierarchy built before the clock starts and then from the bare nodes; each the least of many batches. The distance that
// neighbours need is D plus both half-widths, which are 0.
const { hierarchy, tree } = require("d3-hierarchy");
const { least } = require("./least.js");

const SEPARATION = 5;

for (const line of require("fs").readFileSync(0, "utf8").trim().split("\n")) {
  const [shape, ...parents] = line.split(" ");
  const nodes = [0, ...parents].map(() => ({ children: [], halfWidth: 0 }));
  parents.forEach((parent, index) => nodes[Number(parent)].children.push(nodes[index + 1]));
  const needed = (a, b) => SEPARATION + a.data.halfWidth + b.data.halfWidth;
  const layout = tree().nodeSize([1, 1]).separation(needed);
  const root = hierarchy(nodes[0]);
  console.log(shape, least(() => layout(root)), least(() => layout(hierarchy(nodes[0]))));
}
