/** A function that computes each answer once. */
export function remembered(compute) {
  const known = new Map();
  return (of) => {
    if (!known.has(of)) known.set(of, compute(of));
    return known.get(of);
  };
}
