/* Holds all devices of a host adapter after a bus reset, and where three of their commands timed out within a second: its controller
   is frozen for two seconds. Queues 0 to 7 are under controller 0, the next eight under controller 1, and so on. Table 0 has how
   many commands of each controller timed out, table 1 when the last four of each did. */
#include "../policies/camr.h"

u64 policy(struct context *c, u64 freeze) {
    u64 code = c->status & STATUS_CODE;
    u64 holds = code == CAM_SCSI_BUS_RESET;
    if (code == CAM_CMD_TIMEOUT) {
        u64 controller = c->queue >> 3 & 7;
        u64 time = now() + 1;
        u64 count = table_add(0, controller, 1);
        table_put(1, controller << 2 | (count & 3), time);
        u64 third = table_get(1, controller << 2 | (count - 2 & 3));
        holds = third != 0 && time - third <= 1000;
    }
    if (holds) {
        u64 all = freeze_controller();
        if (all)
            release_after(all, 2000);
    }
    if (freeze)
        release(freeze);
    requeue(1);
    return 0;
}
