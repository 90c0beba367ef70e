// The package in Node: the client with the links that Node alone has, so that a bundle has them too.

import "./links-node.js";

export * from "./richd.js";
