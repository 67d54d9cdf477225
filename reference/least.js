// The least time of a call in nanoseconds, over many batches.
const BATCHES = 40;
const CALLS = 5;

function least(call) {
  let time = Infinity;
  for (let batch = 0; batch < BATCHES; batch++) {
    const start = process.hrtime.bigint();
    for (let count = 0; count < CALLS; count++) call();
    time = Math.min(time, Number(process.hrtime.bigint() - start) / CALLS);
  }
  return time.toFixed(0);
}

module.exports = { least };
