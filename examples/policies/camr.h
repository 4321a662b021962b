/* What a policy sees: its context with the codes that stand in it, and the helpers that it may call. tools/policy-from-c makes a
   program of a manifest of one. */
typedef unsigned char u8;
typedef unsigned short u16;
typedef unsigned int u32;
typedef unsigned long long u64;
typedef signed char s8;
typedef short s16;
typedef int s32;
typedef long long s64;

struct context {
    u32 ccb;          /* the CCB's number */
    u32 queue;        /* its queue */
    u32 status;       /* the CAM status in the low 6 bits, with these flags */
    u8 scsi;          /* the SCSI status */
    u8 key;           /* of the sense data that came: the sense key, */
    u8 asc;           /* the additional sense code, */
    u8 ascq;          /* and its qualifier */
    u32 retries;      /* how many are left */
    u32 sense_length; /* how many sense bytes came, 0 to 64 */
    u32 attempts;     /* how often it was started */
    u32 class;        /* what the command is, as the host submitted it; zero below version 3 of the manifest */
    u8 sense[64];     /* the sense bytes, and zeros after them */
};

/* The status: its code, and the flags beside it. */
enum { STATUS_CODE = 0x3f, DEV_QFRZN = 0x40, AUTOSNS_VALID = 0x80 };
enum {
    CAM_REQ_ABORTED = 0x02,
    CAM_BUSY = 0x05,
    CAM_SEL_TIMEOUT = 0x0a,
    CAM_CMD_TIMEOUT = 0x0b,
    CAM_SCSI_STATUS_ERROR = 0x0c,
    CAM_SCSI_BUS_RESET = 0x0e,
    CAM_BDR_SENT = 0x17,
    CAM_REQUEUE_REQ = 0x1b
};

/* SCSI statuses (SAM) and sense keys (SPC). */
enum { SCSI_CHECK_CONDITION = 0x02, SCSI_BUSY = 0x08, SCSI_RESERVATION_CONFLICT = 0x18, SCSI_TASK_SET_FULL = 0x28 };
enum {
    SENSE_RECOVERED_ERROR = 0x1,
    SENSE_NOT_READY = 0x2,
    SENSE_MEDIUM_ERROR = 0x3,
    SENSE_HARDWARE_ERROR = 0x4,
    SENSE_ILLEGAL_REQUEST = 0x5,
    SENSE_UNIT_ATTENTION = 0x6,
    SENSE_DATA_PROTECT = 0x7,
    SENSE_ABORTED_COMMAND = 0xb
};

/* What queue_info writes. */
struct queue_counts {
    u32 frozen;
    u32 active;
    u32 waiting;
    u32 openings;
};

static u64 (*const freeze_queue)(u64 queue) = (void *)1;
static u64 (*const release)(u64 freeze) = (void *)2;
static u64 (*const release_after)(u64 freeze, u64 milliseconds) = (void *)3;
static u64 (*const requeue)(u64 retries_used) = (void *)4;
static u64 (*const finish)(u64 code) = (void *)5;
static u64 (*const table_get)(u64 table, u64 index) = (void *)6;
static u64 (*const table_put)(u64 table, u64 index, u64 word) = (void *)7;
static u64 (*const table_add)(u64 table, u64 index, u64 by) = (void *)8;
static u64 (*const queue_info)(void *to) = (void *)9;
static u64 (*const trace)(const void *bytes, u64 length) = (void *)10;
static u64 (*const now)(void) = (void *)11;
static u64 (*const set_openings)(u64 openings) = (void *)12;
/* From version 2 of the manifest on. */
static u64 (*const freeze_controller)(void) = (void *)13;
static u64 (*const controller_frozen)(void) = (void *)14;
/* In version 3 alone. */
static u64 (*const advise)(u64 word) = (void *)15;

/* What a policy may advise the host to do before the next try. Words from ADVICE_OF_HOST on are the host's own. */
enum {
    ADVICE_NONE,
    ADVICE_TEST_UNIT_READY,
    ADVICE_START_UNIT,
    ADVICE_REQUEST_SENSE,
    ADVICE_ABORT,
    ADVICE_LOGICAL_UNIT_RESET,
    ADVICE_TARGET_RESET,
    ADVICE_BUS_RESET,
    ADVICE_RECONNECT,
    ADVICE_OF_HOST = 65536
};
