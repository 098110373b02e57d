/* Uses what the header of configurations has, in the C of 1989, which is also the C++ of 1998: it is read by each standard of both without a
 * warning. Run, it ends with 0 where a configuration of two networks says what it should, and a line that another forbids is wrong. */
#include "ipxr_configuration.h"

#include <string.h>

static ipxr_configuration all;

static uint8_t reads(const char *text, size_t line, ipxr_line_wrong *wrong)
{
    ipxr_setting said;
    return ipxr_configuration_line(&all, (const uint8_t *)text, strlen(text), line, 1, &said, wrong);
}

int main(void)
{
    ipxr_line_wrong wrong;
    ipxr_configured link;
    ipxr_internal own;
    int is_right = reads("network 10 1 1424 dosbox 2130", 1, &wrong) == 0 && reads("extend 4003", 2, &wrong) == 0;
    is_right = is_right && reads("service 4 AB A1.000000000001.451 1 via 00001B0204AA", 7, &wrong) == 0;
    is_right = is_right && reads("network 20 1 1424 dosbox 2130", 3, &wrong) == IPXR_EXPECTED_OTHER_PORT && wrong.line == 1;
    is_right = is_right && reads("network 20 1 1424", 4, &wrong) == 0 && ipxr_configuration_unlinked(&all) == 4;
    is_right = is_right && reads("link tap ipx0 raw", 5, &wrong) == 0 && ipxr_configuration_unlinked(&all) == 0;
    is_right = is_right && ipxr_configuration_internal(&all, &own) == 0 && reads("internal 30", 6, &wrong) == 0;
    is_right = is_right && ipxr_configuration_internal(&all, &own) == 1 && own.line == 6 && own.number == 0x30 && own.node[5] == 1;
    is_right = is_right && ipxr_configuration_link(&all, 0, &link) == 1 && link.number == 0x10 && link.sockets.list[0] == 0x4003;
    is_right = is_right && link.static_routes.count == 0 && link.static_services.count == 1 && link.static_services.list[0].service.type == 4;
    is_right = is_right && ipxr_configuration_link(&all, 1, &link) == 1 && link.number == 0x20 && link.port == 1 && link.adopts == 1 && link.rules.count == 0;
    return is_right && ipxr_configuration_link(&all, 2, &link) == 0 ? 0 : 1;
}
