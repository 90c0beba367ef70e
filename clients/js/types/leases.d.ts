export function areSame(one: Lease | undefined, other: Lease | undefined): boolean;
export type Lease = {
    name: string;
    /**
     * for the how manieth time a gateway lends the name for the document; 0 of a source's own name, which is never lent
     */
    epoch: number;
};
