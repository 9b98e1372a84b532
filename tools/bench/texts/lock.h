/*
 * lock.h - time lock controller, firmware 3.2
 *
 * Shared by the boot loader, the lock task and the service tool. Everything
 * that is kept in EEPROM or sent over the service port is declared here;
 * layouts must not change without a new LOCK_FORMAT.
 */
#ifndef LOCK_H
#define LOCK_H

#include <stdbool.h>
#include <stddef.h>
#include <stdint.h>

#define LOCK_BIT(n) (1u << (n))
#define LOCK_API

/* ---- limits ------------------------------------------------------------ */

enum lock_limits {
    LOCK_FORMAT = 7,
    DAYS_PER_WEEK = 7,
    HOURS_PER_DAY = 24,
    MINUTES_PER_DAY = HOURS_PER_DAY * 60,
    SLOTS_PER_DAY = 6,
    MAX_USERS = 48,
    MAX_HOLIDAYS = 32,
    MAX_NAME = 15,
    PIN_DIGITS = 8,
    LOG_ENTRIES = 1 << 7,
    LOG_MASK = LOG_ENTRIES - 1,
    FRAME_HEADER = 4,
    FRAME_MAX = 256 - FRAME_HEADER,
    EEPROM_PAGE = 0x40,
    EEPROM_PAGES = 0x2000 / EEPROM_PAGE
};

/* What went wrong; negative, so that a count and a fault fit in one int. */
typedef enum lock_status {
    LOCK_OK = 0,
    LOCK_E_BUSY = -1,
    LOCK_E_PIN = -2,
    LOCK_E_TIME = -3,       /* outside of every slot */
    LOCK_E_JAMMED = -4,
    LOCK_E_BATTERY = -5,
    LOCK_E_STORE = -16,
    LOCK_E_FORMAT = LOCK_E_STORE - 1,
    LOCK_E_FRAME = -32
} lock_status_t;

enum lock_state { STATE_OPEN, STATE_SHUT, STATE_MOVING, STATE_JAMMED, STATE_SERVICE };

enum event_kind {
    EVENT_NONE,
    EVENT_OPENED = 'O',
    EVENT_SHUT = 'S',
    EVENT_REFUSED = 'R',
    EVENT_CLOCK_SET = 'C',
    EVENT_TAMPER = 'T',
    EVENT_POWER = 'P'
};

/* ---- time --------------------------------------------------------------- */

typedef uint16_t minute_t;  /* of the day, 0 to MINUTES_PER_DAY - 1 */
typedef uint32_t seconds_t; /* since 2000-01-01 00:00 */

typedef struct date {
    uint16_t year : 7;      /* from 2000 */
    uint16_t month : 4;
    uint16_t day : 5;
} date_t;

struct clock {
    volatile seconds_t now;
    int16_t drift;          // parts per million, signed
    uint8_t source : 2, synchronised : 1;
    uint8_t : 0;
    int8_t zone_quarters;
};

/* One span in which the lock may be opened; `to` is not part of it. */
struct slot {
    minute_t from, to;
    unsigned int groups : 12;
    unsigned int two_persons : 1;
    unsigned int silent : 1;
    unsigned int : 2;
    unsigned int delay : 16; /* seconds between PIN and bolt */
};

struct schedule {
    uint8_t used[DAYS_PER_WEEK];
    struct slot slots[DAYS_PER_WEEK][SLOTS_PER_DAY];
    struct {
        date_t first, last;
        char name[MAX_NAME + 1];
    } holidays[MAX_HOLIDAYS];
    uint8_t holiday_count;
};

/* ---- users ---------------------------------------------------------------- */

typedef uint8_t pin_t[(PIN_DIGITS + 1) / 2]; /* packed decimal, 0xf fills */

struct user {
    char name[MAX_NAME + 1];
    pin_t pin;
    uint16_t groups;
    date_t valid_from;
    date_t valid_to;
    uint8_t failures : 4;
    uint8_t blocked : 1;
    uint8_t master : 1;
    uint8_t duress : 1;
};

struct user_set {
    uint8_t count;
    uint8_t present[(MAX_USERS + 7) / 8];
    struct user users[MAX_USERS];
};

/* ---- the log -------------------------------------------------------------- */

struct event {
    seconds_t when;
    enum event_kind kind;
    union {
        struct {
            uint8_t user;
            uint8_t door;
            int16_t status;
        } access;
        struct {
            seconds_t before;
        } clock;
        uint16_t millivolts;
        uint8_t raw[4];
    } u;
};

typedef struct event_log {
    uint32_t written;
    uint32_t read;
    struct event ring[LOG_MASK + 1];
} event_log_t;

typedef bool (*event_filter_t)(const struct event *event, void *context);

/* ---- hardware -------------------------------------------------------------- */

/* Registers of the bolt driver, as they lie in memory. */
struct bolt_registers {
    volatile uint32_t control;
    volatile const uint32_t status;
    volatile uint32_t current;
    uint32_t reserved[0x10 - 3];
    union {
        volatile uint32_t word;
        volatile struct {
            uint32_t enable : 1;
            uint32_t reverse : 1;
            uint32_t duty : 10;
            uint32_t : 4;
            uint32_t ramp : 8;
        } bits;
    } motor;
};

struct board;

struct board_ops {
    int (*start)(struct board *self);
    void (*stop)(struct board *self);
    int (*bolt)(struct board *self, bool shut, unsigned timeout_ms);
    seconds_t (*time)(const struct board *self);
    int (*eeprom_read)(struct board *self, uint16_t at, void *to, size_t count);
    int (*eeprom_write)(struct board *self, uint16_t at, const void *from, size_t count);
    void (*on_edge)(struct board *self, void (*handler)(void *context, uint32_t edges), void *context);
};

struct board {
    const struct board_ops *ops;
    struct bolt_registers *bolt;
    struct board *next;
    const char *name;
    uint8_t eeprom_cache[2][EEPROM_PAGE];
    unsigned long long uptime_us;
    float battery_volts;
    double bolt_position;
};

/* ---- the service port ---------------------------------------------------- */

struct frame {
    uint8_t start;
    uint8_t command;
    uint16_t length;
    uint8_t payload[];
};

typedef lock_status_t (*command_t)(struct frame *in, struct frame *out, size_t room);

struct command_entry {
    uint8_t number;
    uint8_t needs_master;
    uint16_t longest;
    command_t run;
    const char *const help;
};

typedef union settings {
    struct {
        uint16_t format;
        uint16_t length;
        uint32_t checksum;
        struct schedule schedule;
        struct user_set users;
        int32_t bolt_trim[2];
        char site[2 * MAX_NAME + 2];
    } v;
    uint8_t pages[EEPROM_PAGES / 2][EEPROM_PAGE];
} settings_t;

struct lock {
    enum lock_state state, wanted;
    struct clock clock;
    settings_t settings;
    event_log_t log;
    struct board *board;
    struct {
        pin_t digits;
        uint8_t count;
        seconds_t last_key;
    } entry;
    void (*changed)(struct lock *lock, enum lock_state before, enum lock_state after);
    struct lock *peers[3];
};

/* ---- data ------------------------------------------------------------------ */

extern struct lock the_lock;
extern const struct command_entry lock_commands[];
extern const uint8_t lock_crc_table[16 * 16];
extern volatile uint32_t *const lock_watchdog;
extern uint8_t lock_noinit[LOCK_FORMAT * 8] __attribute__((section(".noinit")));

static const uint8_t days_in_month[12] = { 31, 28, 31, 30, 31, 30, 31, 31, 30, 31, 30, 31 };

/* ---- functions ------------------------------------------------------------- */

lock_status_t lock_start(struct lock *lock, struct board *board);
void lock_stop(struct lock *lock);
lock_status_t lock_tick(struct lock *lock, seconds_t now);
lock_status_t lock_key(struct lock *lock, char key);
lock_status_t lock_open(struct lock *lock, const pin_t pin, unsigned door);
bool lock_may_open(const struct lock *lock, const struct user *user, seconds_t at);
const struct slot *lock_next_slot(const struct schedule *schedule, seconds_t after, int *day);
int lock_find_user(const struct user_set *users, const char *name, size_t length);
int lock_add_user(struct user_set *users, const struct user *user);
date_t lock_date(seconds_t at);
minute_t lock_minute(seconds_t at);
seconds_t lock_seconds(date_t date, minute_t minute);

void log_add(event_log_t *log, const struct event *event);
int log_read(event_log_t *log, struct event out[LOG_ENTRIES], size_t room, event_filter_t filter, void *context);

lock_status_t settings_load(settings_t *settings, struct board *board);
lock_status_t settings_store(const settings_t *restrict settings, struct board *board);
uint32_t settings_checksum(const uint8_t *bytes, size_t count) __attribute__((pure));

command_t frame_command(uint8_t number);
int frame_receive(struct frame *frame, size_t room, int (*next)(void *port), void *port);
int lock_trace(const char *format, ...) __attribute__((format(printf, 1, 2)));
void lock_fatal(lock_status_t why, const char *file, int line) __attribute__((noreturn, cold));

#endif /* LOCK_H */
