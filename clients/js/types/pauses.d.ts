/** Pauses that double, from a tenth of a second up to five. */
export class Pauses {
    next(): number;
    reset(): void;
    /**
     * Waits for the next pause, or until `end` is called.
     * @returns {Promise<void>}
     */
    wait(): Promise<void>;
    /** Ends the pause that somebody waits for. */
    end(): void;
    #private;
}
