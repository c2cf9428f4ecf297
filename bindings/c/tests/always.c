/* always.c: five _is_good functions that always say the same, ALWAYS. Linked in the place of the library's, they must make cases.c and
 * corrupt.c fail: so those can.
 */
#include "../valemkhor.h"

bool vk_range_buf_is_good(vk_range_buf buf) { return (void)buf, ALWAYS; }
bool vk_flow_control_is_good(vk_flow_control flow) { return (void)flow, ALWAYS; }
bool vk_range_set_is_good(vk_range_set set) { return (void)set, ALWAYS; }
bool vk_send_buf_is_good(vk_send_buf buf) { return (void)buf, ALWAYS; }
bool vk_recv_buf_is_good(vk_recv_buf buf) { return (void)buf, ALWAYS; }
