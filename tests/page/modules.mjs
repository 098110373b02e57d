// Tries the page's modules by Node, without a browser and without the program. Each check prints a line.
await import("./captures.mjs");
await import("./scripts.mjs");
