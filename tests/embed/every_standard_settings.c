/* Uses what the header of settings has, in the C of 1989, which is also the C++ of 1998: it is read by each standard of both without a
 * warning. Run, it ends with 0 where a line of a network, a wrong one and a range say what they should. */
#include "ipxr_settings.h"

#include <string.h>

static const char RIGHT[] = "network 10 1 1424 dosbox 2130 # a remark", WRONG[] = "clients 10 11", OWN[] = "internal 1F node 020000000007", ADOPT[] = "adopt no", RULE[] = "deny nearest", ROUTE[] = "route A1 2 3 via 00001B0204AA", RANGE[] = "192.168.1.0/24";

static uint8_t reads(const char *text, ipxr_setting *said)
{
    return ipxr_settings_line((const uint8_t *)text, strlen(text), 1, 0, 4096, said);
}

int main(void)
{
    ipxr_setting said;
    ipxr_setting_range range;
    size_t start = 0;
    int is_right = reads(RIGHT, &said) == 0 && said.kind == IPXR_SETTING_NETWORK && said.read == 6 && said.network.number == 0x10;
    is_right = is_right && said.link.carrier == IPXR_OVER_TUNNEL && said.link.local.port == 2130 && said.link.local.four[0] == 127;
    is_right = is_right && reads(OWN, &said) == 0 && said.kind == IPXR_SETTING_INTERNAL && said.network.number == 0x1F && said.network.node[5] == 7;
    is_right = is_right && reads(ADOPT, &said) == 0 && said.kind == IPXR_SETTING_ADOPT;
    is_right = is_right && reads(RULE, &said) == 0 && said.kind == IPXR_SETTING_DENY && said.rule.what == IPXR_RULE_NEAREST;
    is_right = is_right && reads(ROUTE, &said) == 0 && said.kind == IPXR_SETTING_ROUTE && said.route.route.hops == 2 && said.route.via[5] == 0xAA;
    is_right = is_right && reads(WRONG, &said) == IPXR_EXPECTED_OF_ADDRESS && said.read == 2 && said.numbers[0] == 10;
    is_right = is_right && ipxr_settings_word((const uint8_t *)WRONG, strlen(WRONG), said.read, &start) == 2 && start == 11;
    is_right = is_right && ipxr_settings_range((const uint8_t *)RANGE, strlen(RANGE), &range) == 1 && range.bits == 24;
    return is_right && ipxr_settings_socket((const uint8_t *)"4003", 4) == 0x4003 ? 0 : 1;
}
