// ---- claims that are proved by computing: [name, left side, right side]

let wrong = 0;
for (const [name, left, right] of CLAIMS) {
  const [computed, claimed] = [show(left()), show(right())];
  forget();
  if (computed === claimed && computed !== "undefined") continue;
  wrong++;
  console.log(`WRONG ${name}\n  computed ${computed.slice(0, 500)}\n  claimed  ${claimed.slice(0, 500)}`);
}
console.log(`${CLAIMS.length} claims evaluated, ${wrong} wrong`);
