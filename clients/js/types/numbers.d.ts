/**
 * The lowest number from 1 on that isn't used, where none above it is. It takes some rounds of questions.
 * @param {(number: number) => Promise<boolean>} isUsed
 */
export function firstUnused(isUsed: (number: number) => Promise<boolean>): Promise<number>;
