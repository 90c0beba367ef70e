/**
 * Asks where nothing came for half of the patience, and gives up where nothing came for all of it though something is due. It goes by the
 * clock. A timer that comes late, as in a page behind others or on a computer that slept, knows nothing of what waits to be read: so it
 * asks first, and gives up half of the patience later.
 */
export class Heartbeat {
    /**
     * @param {object} options
     * @param {number} options.patience  milliseconds
     * @param {() => boolean} options.isDue  whether an answer is due
     * @param {() => void} options.ask  sends something that will be answered
     * @param {() => void} options.giveUp
     */
    constructor({ patience, isDue, ask, giveUp }: {
        patience: number;
        isDue: () => boolean;
        ask: () => void;
        giveUp: () => void;
    });
    /** Something came, or something is due from now on. */
    begin(): void;
    /** Asks at once, and gives up half of the patience later where nothing comes. */
    check(): void;
    end(): void;
    #private;
}
