// How the next number of a source is found.

const POWERS = Array.from({ length: 53 }, (_, exponent) => 2 ** exponent);
const PROBES = 15; // that are asked at once

/**
 * The lowest number from 1 on that isn't used, where none above it is. It takes some rounds of questions.
 * @param {(number: number) => Promise<boolean>} isUsed
 */
export async function firstUnused(isUsed) {
  let [used, unused] = [0, 2 ** 53];
  let probes = POWERS;
  while (unused - used > 1) {
    const answers = await Promise.all(probes.map(isUsed));
    const count = answers.filter(Boolean).length; // the lowest ones
    [used, unused] = [probes[count - 1] ?? used, probes[count] ?? unused];
    const step = Math.ceil((unused - used) / (PROBES + 1));
    probes = Array.from({ length: PROBES }, (_, index) => used + step * (index + 1)).filter((probe) => probe < unused);
  }
  return unused;
}
