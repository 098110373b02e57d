// What stays when a gateway reads another configuration.
import * as raw from "./raw.mjs";
import { judged, lend, packedList, read } from "./values.mjs";

const each = (name, at, count) => Array.from({ length: count }, (_, k) => read(name, at + k * raw.layouts[name].size));

/** What stays of the old links with the new ones: whether the router does, what each new link is made from, and each old one's fate. */
export function plan(old, links) {
    const [before, after] = [old, links].map((it) => packedList("ipxr_plan_link", it, "link", raw.IPXR_MOST_PLANNED));
    const rooms = [raw.layouts.ipxr_plan_origin.size * after.count, raw.layouts.ipxr_plan_fate.size * before.count];
    const [was, is, origins, fates] = lend(before.bytes, after.bytes, ...rooms);
    const stays = judged(raw.ipxr_plan(was, before.count, is, after.count, origins, after.count, fates, before.count));
    return {
        staysRouter: stays === 1,
        origins: each("ipxr_plan_origin", origins, after.count),
        fates: each("ipxr_plan_fate", fates, before.count),
    };
}
