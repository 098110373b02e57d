// Why a packet is dropped, in plain words beside the word of `ipxr`; docs/SCRIPTS.md says it more precisely.

const REASONS = {
    NotRunning: "the router is stopped", OwnEcho: "it is from the port itself", BadSource: "it is from the broadcast node",
    CrossedShort: "it has no room for eight networks", CrossedFull: "it has crossed eight networks or more",
    CrossedSeen: "it has crossed this network already", Elsewhere: "it is for another node of this network",
    OtherSocket: "it is for this network, but not for a router's socket", NotNeighbour: "it is from another network",
    NearestReply: "routers don't ask for the nearest service", TooManyRouters: "it came through sixteen routers",
    FarSide: "it is for another port of this router", NoRoute: "no route to its network", TooLong: "it is too long for the network",
    DownPort: "the port is down", Malformed: "it is not a whole packet", BadRip: "its routes can't be read",
    BadSap: "its services can't be read",
};

// The reason of a word, or nothing; with the network that a packet is for, where that is known.
export function reason(word, network = "") {
    const it = REASONS[word.split(":")[0]] ?? "";
    return network && word === "NoRoute" ? `no route to net ${network}` : it;
}

// A line of `ipxr` with the reason behind it, if it tells of a drop.
export function explained(line) {
    const [, word] = /^drop (\S+)/.exec(line) ?? [];
    const it = word && reason(word);
    return it ? `${line} (${it})` : line;
}
