/*
 * The handset and the collector, for programs in C or C++: the calls of libhandset.a, which ./c-build makes. docs/C.md says how to
 * build and link, and what is proved of it; docs/RULES.md says in full what is only named here: its sections are given in brackets.
 *
 * All that a handset keeps between two calls is one `struct handset`. It is yours: make one, power it on, and lend its address to each
 * call. A call stores in it all that changes, keeps no pointer, and has no memory of its own.
 *
 * A call that can be refused hands back how it ended, enum handset_number: 0 is done. With any other number it has changed nothing that it
 * was lent, but that counts and places for an answer hold zero.
 *
 * What must hold at each call, since C can't see to it:
 *   - a pointer is not null, also where its count is 0, and there are as many places behind it as the count says;
 *   - what a call may write overlaps nothing else that it is lent, and nobody else uses it until the call is over;
 *   - header and archive are of one interface: compare HANDSET_INTERFACE with handset_interface() once, at the start.
 * No value in a record can do harm, such as what memory holds after a power cut: a record out of range is refused with number 1.
 */
#ifndef HANDSET_H
#define HANDSET_H

#include <stdbool.h>
#include <stdint.h>

/* The number of this interface. It rises when a struct, a call or the meaning of a number changes. */
#define HANDSET_INTERFACE 5

/* How a call ended wants to be looked at: a compiler that can says where a program does not. */
#if defined(__cplusplus) && __cplusplus >= 201703L
#define HANDSET_RESULT [[nodiscard]]
#elif defined(__GNUC__)
#define HANDSET_RESULT __attribute__((warn_unused_result))
#else
#define HANDSET_RESULT
#endif

#ifdef __cplusplus
extern "C" {
#endif

/* ---- Sizes ---- */

enum {
    HANDSET_TEXT_SIZE = 104,      /* codes of the text: 5 rows of 16, then the large line of 24 */
    HANDSET_PICTURE_SIZE = 672,   /* columns of the picture: 7 rows of 96 */
    HANDSET_FRAME_SIZE = 250,     /* bytes of an open frame at most */
    HANDSET_TEXT_ROWS = 5,        /* text rows that are kept, in every text mode */
    HANDSET_TEXT_ROW_SIZE = 16,   /* codes of a text row */
    HANDSET_LARGE_LINE_SIZE = 24, /* codes of the large line */
    HANDSET_DISPLAY_ROWS = 7,     /* rows of the display, and of the picture */
    HANDSET_DISPLAY_COLUMNS = 96, /* columns of a display row, and of a picture row */
    HANDSET_BIG_CODES = 8,        /* codes of the large line that are shown big */
    HANDSET_LABEL_SIZE = 7,       /* codes of a label at most */
    HANDSET_LONGEST_ANSWER = 31,  /* bytes of the longest answer, the sister's version; the first edition's has 29. With less room a stream
                                     call never gets past that question */
    HANDSET_MESSAGE_SIZE = 6,     /* bytes of a message of the sister's keys */
    HANDSET_LONGEST_WRITTEN = 200 /* bytes that a writer writes at most: this much room is always enough */
};

/* ---- Numbers that cross ---- */

/* How a call ended [2]. */
enum handset_number {
    HANDSET_DONE = 0,
    HANDSET_FIELD_OUT_OF_RANGE = 1,   /* a field of the record is out of its range */
    HANDSET_COMMAND_OUT_OF_RANGE = 2, /* a writer's command, label, columns or row is out of range */
    HANDSET_NO_ROOM = 3,              /* a writer's frame is longer than the room */
    HANDSET_NOT_LISTED = 4,           /* a display row above 6 or a column above 95; an edge that is not listed */
    HANDSET_UNEQUAL_LENGTHS = 5       /* ticks and edges of a key log differ in length */
};

/* Text modes and overlays: struct handset_screen, and HANDSET_COMMAND_MODE. What each shows where is a table in RULES [8]. */
enum handset_mode {
    HANDSET_MODE_0 = 0,       /* four text rows below the icon bar */
    HANDSET_MODE_1 = 1,       /* the same */
    HANDSET_MODE_5 = 5,       /* five text rows and no icon bar */
    HANDSET_MODE_6 = 6,       /* the same */
    HANDSET_MODE_LARGE = 10,  /* text goes to the large line */
    HANDSET_OVERLAY_NONE = 0, /* kept in the record; no command sets it but a text mode */
    HANDSET_OVERLAY_FIRST = 11,
    HANDSET_OVERLAY_LAST = 18
};

/* Which volume the record keeps: struct handset_volume. The numbers of the panel are others. */
enum handset_which {
    HANDSET_WHICH_NONE = 0,
    HANDSET_WHICH_PRIVATE = 1,
    HANDSET_WHICH_HANDSFREE = 2
};

/* The backlight's mode. */
enum handset_light {
    HANDSET_LIGHT_OFF = 0,
    HANDSET_LIGHT_ON = 1,
    HANDSET_LIGHT_AUTO = 2 /* a press lights it for its duration */
};

/* The state of the record's frame. */
enum handset_state {
    HANDSET_FRAME_NONE = 0,
    HANDSET_FRAME_OPEN = 1,
    HANDSET_FRAME_OVERLONG = 2 /* more than 250 bytes; none of them is kept */
};

/* The stage of the sister's keys: struct handset_keys. */
enum handset_stage {
    HANDSET_STAGE_NONE = 0,
    HANDSET_STAGE_SHORT = 1,
    HANDSET_STAGE_LONG = 2,
    HANDSET_STAGE_FALSE = 3 /* a second key was pressed while one was down */
};

/* Keys [6]. In a key log a key by itself is its press; with HANDSET_RELEASE added it is its release. */
enum handset_key {
    HANDSET_KEY_LEFT_SOFT = 0,
    HANDSET_KEY_RIGHT_SOFT = 1,
    HANDSET_KEY_ESC = 2,
    HANDSET_KEY_ENTER = 3,
    HANDSET_KEY_UP = 4,
    HANDSET_KEY_DOWN = 5,
    HANDSET_KEY_1 = 6,
    HANDSET_KEY_2 = 7,
    HANDSET_KEY_3 = 8,
    HANDSET_KEY_4 = 9,
    HANDSET_KEY_5 = 10,
    HANDSET_KEY_6 = 11,
    HANDSET_KEY_7 = 12,
    HANDSET_KEY_8 = 13,
    HANDSET_KEY_9 = 14,
    HANDSET_KEY_0 = 15,
    HANDSET_KEY_STAR = 16,
    HANDSET_KEY_HASH = 17,
    HANDSET_KEY_ON_OFF = 18,
    HANDSET_KEY_MUTE = 19, /* the sister's, as all that follow */
    HANDSET_KEY_REC_SOS = 20,
    HANDSET_KEY_HOOK = 21, /* its press lifts it */
    HANDSET_KEY_PTT = 22
};

/*
 * Edges: the entries of a key log. 0 to 18 press, 128 to 146 release, 255 poll; all others are not listed. Of the sister 0 to 22 press and
 * 128 to 150 release.
 */
enum handset_edge {
    HANDSET_PRESS = 0,     /* and a key */
    HANDSET_RELEASE = 128, /* and a key */
    HANDSET_POLL = 255     /* asks how long a key is held by now */
};

/* The phase of a flashing icon in which a question is asked. Any other number is the pause too. */
enum handset_phase {
    HANDSET_LIT = 0,
    HANDSET_PAUSE = 1
};

/* The side of a label. Any other number is right too. */
enum handset_side {
    HANDSET_LEFT = 0,
    HANDSET_RIGHT = 1
};

/* Who a display row or a place of it belongs to [8]. In brackets what `place` is; it is 0 for the others. */
enum handset_owner {
    HANDSET_OWNER_NOTHING = 0,
    HANDSET_OWNER_ICON_BAR = 1,
    HANDSET_OWNER_TEXT_ROW = 2,            /* (the text row, 0 to 4) */
    HANDSET_OWNER_PICTURE_ROW = 3,         /* (the picture row, 0 to 6) */
    HANDSET_OWNER_SMALL_LINE = 4,          /* the small codes of the large line */
    HANDSET_OWNER_BIG_LINE = 5,            /* (0 the upper, 1 the lower half of the big codes) */
    HANDSET_OWNER_PICTURE_WITH_ROCKER = 6, /* (the picture row, 5) the rocker stands between two halves of it */
    HANDSET_OWNER_SOFT_KEYS = 7
};

/* What stands at a place [8]. In brackets what `value` is; it is 0 for the others. */
enum handset_shown {
    HANDSET_SHOWN_NOTHING = 0,
    HANDSET_SHOWN_BAR = 1,        /* the icon bar, told whole in `bar` */
    HANDSET_SHOWN_CODE = 2,       /* (a code of a text row or of the large line) */
    HANDSET_SHOWN_COLUMN = 3,     /* (a picture's column; its lowest bit is the top dot) */
    HANDSET_SHOWN_LEFT_LABEL = 4, /* (a code of the left label, 0 past its length) */
    HANDSET_SHOWN_ROCKER = 5,     /* (icon W) */
    HANDSET_SHOWN_RIGHT_LABEL = 6 /* (a code of the right label, 0 past its length) */
};

/* What the SMS panel shows. */
enum handset_sms {
    HANDSET_SMS_NOTHING = 0,
    HANDSET_SMS_READ = 1,
    HANDSET_SMS_UNREAD = 2
};

/* What the volume panel shows. In brackets what `level` is; it is 0 for the others. */
enum handset_sound {
    HANDSET_SOUND_NOTHING = 0,
    HANDSET_SOUND_MUTE = 1,
    HANDSET_SOUND_PRIVATE = 2,  /* (1 to 10) */
    HANDSET_SOUND_HANDSFREE = 3 /* (1 to 10) */
};

/* What stands at a place of a stream [3]. */
enum handset_kind {
    HANDSET_PART_NONE = 0,      /* the stream ends here, or before */
    HANDSET_PART_TEXT = 1,      /* a byte of text */
    HANDSET_PART_SKIPPED = 2,   /* a byte that is skipped */
    HANDSET_PART_CLOSED = 3,    /* a frame that CR closes */
    HANDSET_PART_ABANDONED = 4, /* a frame that the next ESC abandons */
    HANDSET_PART_TAIL = 5       /* a frame that is still open where the stream ends */
};

/* What becomes of a frame. In brackets what `number_out` is; it is 0 for the others. */
enum handset_judged {
    HANDSET_VERDICT_BAD = 0,         /* it is answered with '?' */
    HANDSET_VERDICT_PASSED_OVER = 1, /* (its first number that is out of range) it gets silence, and nothing of it is done */
    HANDSET_VERDICT_OBEYED = 2,
    HANDSET_VERDICT_REFUSED = 3 /* by the record's state: it is answered as a bad one. Of the sister's frames alone */
};

/* The rules of the choice screen [11]. */
enum handset_rule {
    HANDSET_RULE_NONE = 0,          /* no rule is broken: yes */
    HANDSET_RULE_NO_SCREEN = 1,     /* the first part is not ID0 or ID5 */
    HANDSET_RULE_LABEL_MISSING = 2, /* after a later text mode a label is missing */
    HANDSET_RULE_QUESTION_MARK = 3, /* a frame would be answered '?' */
    HANDSET_RULE_FRAME_OPEN = 4     /* a frame is left open */
};

/*
 * Kinds of commands [4], for handset_write_command. Behind each its frame and the range of its numbers a and b; a number that a
 * command has not is passed by. Labels and picture rows have writers of their own.
 */
enum handset_command {
    HANDSET_COMMAND_DISPLAY_OFF = 0,        /* IDD */
    HANDSET_COMMAND_DISPLAY_ON = 1,         /* IDE */
    HANDSET_COMMAND_MODE = 2,               /* IDa: text mode 0, 1, 5, 6, 10, or overlay 11 to 18 */
    HANDSET_COMMAND_CURSOR_SHOWN = 3,       /* &C */
    HANDSET_COMMAND_CURSOR_HIDDEN = 4,      /* &D */
    HANDSET_COMMAND_CLEAR = 5,              /* &#: all text to 0x20, the cursor to 0, 0 */
    HANDSET_COMMAND_POSITION = 6,           /* [a;bH: row 0 to 4, column 0 to 15 */
    HANDSET_COMMAND_LABELS_EMPTY = 7,       /* IK0 */
    HANDSET_COMMAND_ICON_S = 8,             /* ISa: 0 to 1, messages that have been read */
    HANDSET_COMMAND_ICON_U = 9,             /* IUa: 0, 1 or 255, messages that have not been read; 255 flashes */
    HANDSET_COMMAND_ICON_F = 10,            /* IFa: 0 to 6, signal strength */
    HANDSET_COMMAND_ICON_R = 11,            /* IRa: 0 to 1, roaming */
    HANDSET_COMMAND_ICON_P = 12,            /* IPa: 0 to 19, missed calls */
    HANDSET_COMMAND_ICON_W = 13,            /* IWa: 0 to 3, the rocker: 1 down, 2 up, 3 both */
    HANDSET_COMMAND_PRIVATE = 14,           /* ILa: 0 to 10, private volume; 0 hides the volume */
    HANDSET_COMMAND_HANDSFREE = 15,         /* IJa: 0 to 10, handsfree volume; 0 hides the volume */
    HANDSET_COMMAND_HANDSFREE_OF_NOTE = 16, /* IIa: the same, as the note spells it */
    HANDSET_COMMAND_MUTE = 17,              /* IMa: 0 to 1 */
    HANDSET_COMMAND_KEY_TIMES = 18,         /* ITa;b: Time1 4 to 50, Time2 0 or 4 to 50, counts of 100 ms */
    HANDSET_COMMAND_BUZZER = 19,            /* IBa: 0 to 255, a count of 10 ms */
    HANDSET_COMMAND_LIGHT = 20,             /* IEa: 0 backlight off, 1 to 255 its duration, a count of 1 s */
    HANDSET_COMMAND_LIGHT_ON = 21,          /* IEE */
    HANDSET_COMMAND_LIGHT_AUTO_START = 22,  /* IEA: auto, and its seconds start */
    HANDSET_COMMAND_LIGHT_AUTO = 23,        /* IES: auto, its seconds stay */
    HANDSET_COMMAND_DEFAULT_DURATION = 24,  /* IER: duration 30 */
    HANDSET_COMMAND_KEYPAD_SET = 25,        /* IEe */
    HANDSET_COMMAND_KEYPAD_CLEARED = 26,    /* IEr */
    HANDSET_COMMAND_CONTRAST = 27,          /* IAa: 1 to 20 */
    HANDSET_COMMAND_CONTRAST_ASKED = 28,    /* IA, answered ESC IA, the contrast, CR */
    HANDSET_COMMAND_HOOK_ASKED = 29,        /* IH, answered ESC IHH CR on-hook, ESC IHh CR off-hook */
    HANDSET_COMMAND_VERSION_ASKED = 30,     /* &V, answered with 29 bytes */
    HANDSET_COMMAND_CLEAR_LINE = 31,        /* [K: from the cursor to the end of its row */
    HANDSET_COMMAND_INVERSE = 32            /* IZa: 0 no row, 1 to 5 text row a - 1 is seen inverse */
};

/*
 * Kinds of commands that only the sister has [12], for handset_write_sister_command. With the kinds above it writes what both editions
 * have, in her spelling: display off IDMD and on IDME, clear &D, position &Ha;b, clear line &K, and as above IK0, IS, IF, IR, IP, IW, IL,
 * IJ, IM, IB, IA and IZ. The others above are out of her range.
 */
enum handset_sister_command {
    HANDSET_SISTER_CURSOR = 64,               /* &Ca: 0 not shown, 1 shown */
    HANDSET_SISTER_RESTART = 65,              /* &00 */
    HANDSET_SISTER_MODE = 66,                 /* IDMa: 0 to 3 text modes 0, 1, 5, 6; 4 text mode 10; 5 to 12 overlays 11 to 18 */
    HANDSET_SISTER_LIGHT = 67,                /* IEa: 0 backlight off, 1 to 250 its duration, a count of 1 s */
    HANDSET_SISTER_LIGHT_ON = 68,             /* IEE */
    HANDSET_SISTER_LIGHT_AUTO_START = 69,     /* IEA: auto, and its seconds start */
    HANDSET_SISTER_LIGHT_AUTO = 70,           /* IES: auto, its seconds stay */
    HANDSET_SISTER_PWM_ON = 71,               /* IEP */
    HANDSET_SISTER_PWM_AUTO = 72,             /* IEQ: auto with PWM, its seconds stay */
    HANDSET_SISTER_LIGHT_RESTART = 73,        /* IER: in auto its seconds start */
    HANDSET_SISTER_KEYPAD_SET = 74,           /* IEe: in auto without PWM, else refused; so are the next two */
    HANDSET_SISTER_KEYPAD_CLEARED_START = 75, /* IEc: cleared, and the seconds start */
    HANDSET_SISTER_KEYPAD_CLEARED = 76,       /* IEs: cleared, the seconds stay */
    HANDSET_SISTER_ICON_U = 77,               /* IUa: 0 to 2, messages that have not been read; 2 flashes */
    HANDSET_SISTER_BRIGHTNESS = 78,           /* INa: 0 to 100 */
    HANDSET_SISTER_KEY_TIMES = 79,            /* ITa;b: as above, or both 0 */
    HANDSET_SISTER_SPEAKER = 80,              /* IVa: 0 to 7 */
    HANDSET_SISTER_POSITION_ASKED = 81,       /* &H? */
    HANDSET_SISTER_VERSION_ASKED = 82,        /* &V?, answered with 31 bytes */
    HANDSET_SISTER_HOOK_ASKED = 83,           /* KH? */
    HANDSET_SISTER_PTT_ASKED = 84,            /* KP? */
    HANDSET_SISTER_CONTRAST_ASKED = 85,       /* IA? */
    HANDSET_SISTER_MODE_ASKED = 86,           /* IDM? */
    HANDSET_SISTER_LIGHT_ASKED = 87,          /* IE? */
    HANDSET_SISTER_BRIGHTNESS_ASKED = 88,     /* IN? */
    HANDSET_SISTER_TIMES_ASKED = 89,          /* IT? */
    HANDSET_SISTER_SPEAKER_ASKED = 90,        /* IV? */
    HANDSET_SISTER_CONTRAST_UP = 91,          /* IA+: one more, refused at the highest */
    HANDSET_SISTER_CONTRAST_DOWN = 92,        /* IA-: one less, refused at 0; so each step that follows */
    HANDSET_SISTER_BRIGHTNESS_UP = 93,        /* IN+ */
    HANDSET_SISTER_BRIGHTNESS_DOWN = 94,      /* IN- */
    HANDSET_SISTER_SPEAKER_UP = 95,           /* IV+ */
    HANDSET_SISTER_SPEAKER_DOWN = 96          /* IV- */
};

/* ---- The record [1] ---- */

/* A count of 100 ms: Time1 and Time2 of the keys. Each unit of time is a type of its own, so that none can stand for another. */
struct handset_tenths {
    uint8_t tenths;
};

/* A count of 10 ms: the buzzer. */
struct handset_hundredths {
    uint8_t hundredths;
};

/* A count of 1 s: the backlight. */
struct handset_seconds {
    uint8_t seconds;
};

/* A reading of the clock that steps every 10 ms and runs over from 65,535 to 0: a place in time, and no count. */
struct handset_tick {
    uint16_t tick;
};

struct handset_screen {
    bool display;    /* whether the display is on */
    uint8_t mode;    /* text mode: 0, 1, 5, 6, 10 */
    uint8_t overlay; /* 0 none, 11 to 18 */
    uint8_t row;     /* the cursor's: below the rows of the text mode, which are 4 in 0 and 1, 5 in 5 and 6, 1 in 10 */
    uint8_t column;  /* the cursor's: 0 to 16, where 16 is past the end; in text mode 10 0 to 24 */
};

struct handset_label {
    uint8_t len;      /* 0 to 7 */
    uint8_t codes[7]; /* each 0x20 to 0xFF, and 0 past the length */
};

struct handset_icons {
    uint8_t s; /* messages that have been read: 0 to 1 */
    uint8_t u; /* messages that have not been read: 0, 1, or 255 flashing */
    uint8_t f; /* signal strength: 0 no icon, 1 without bars, 2 to 6 with one to five */
    uint8_t r; /* roaming: 0 to 1 */
    uint8_t p; /* missed calls: 0 to 19 */
    uint8_t w; /* the rocker: 0 no icon, 1 down, 2 up, 3 both */
};

struct handset_volume {
    uint8_t which; /* enum handset_which: 0 none, 1 private, 2 handsfree */
    uint8_t level; /* 0 with none, else 1 to 10 */
    bool mute;     /* whether mute is on */
    bool hidden;   /* only with none */
};

struct handset_times {
    struct handset_tenths time1; /* until a held key is long: 4 to 50 */
    struct handset_tenths time2; /* between its repeats: 0 for none, or 4 to 50 */
};

struct handset_backlight {
    uint8_t mode;                    /* enum handset_light: 0 off, 1 on, 2 auto */
    struct handset_seconds duration; /* 1 to 255 */
    struct handset_seconds left;     /* 0 to 255, above 0 only in auto */
    bool keypad;                     /* the keypad flag: set, the keys stay lit when the display's light goes out */
};

struct handset_settings {
    struct handset_screen screen;       /* display, text mode, overlay, and where the cursor stands */
    bool shown;                         /* whether the cursor is shown */
    struct handset_label left;          /* the label over the left soft key */
    struct handset_label right;         /* the label over the right soft key */
    struct handset_icons icons;         /* the six icons */
    struct handset_volume volume;       /* the volume icons and mute */
    struct handset_times times;         /* Time1 and Time2 of the keys */
    struct handset_hundredths buzzer;   /* its last value: 0 to 255 */
    struct handset_backlight backlight; /* the light and its seconds */
    uint8_t contrast;                   /* 1 to 20 */
    bool hook;                          /* whether it is on-hook */
    bool inverse[5];                    /* a mark for each text row, at most one of them set */
};

/* The key that is held down. With none all else is 0. */
struct handset_held {
    bool down;                /* whether a key is held */
    uint8_t key;              /* 0 to 18: enum handset_key */
    struct handset_tick tick; /* of its press or of its last code: 0 to 65,535 */
    bool long_stage;          /* whether its stage is long; else it is short */
};

/* The sister's keys that are down. What a stage does not use is 0, and in the first edition all of it. */
struct handset_keys {
    uint8_t stage;            /* enum handset_stage: 0 none, 1 short, 2 long, 3 false */
    uint8_t key;              /* of short and long: 0 to 20 */
    struct handset_tick tick; /* of short and long: 0 to 65,535 */
    uint32_t down;            /* of false: a bit for each of keys 0 to 20 that is down, the lowest for key 0; one or more of them */
};

/*
 * Which handset it is, and what only the sister, that of AN1900, has. No call changes which it is. In the first edition all of it is 0.
 * The ranges are hers; beside them she has contrast 0 to 20, a duration and seconds left of at most 250, key times that may both be 0,
 * and no key in struct handset_held.
 */
struct handset_edition {
    bool sister;              /* whether it is the sister */
    uint8_t brightness;       /* 0 to 100 */
    uint8_t speaker;          /* the speaker's volume: 0 to 7 */
    bool pwm;                 /* whether the light goes by PWM: only with on and auto */
    bool ptt;                 /* whether PTT is pressed */
    struct handset_keys keys; /* her held keys */
};

/* All of the record but its three arrays. */
struct handset_small {
    struct handset_settings settings; /* everything but text, picture, held key, frame and edition */
    struct handset_held held;         /* the key that is held down, or none */
    uint8_t state;                    /* of the frame: enum handset_state, 0 none, 1 open, 2 overlong */
    uint8_t len;                      /* of the frame: 0 to 250, and 0 unless it is open */
    struct handset_edition edition;   /* 0 in the first edition */
};

/*
 * A whole handset. What is kept while the power is off, or sent elsewhere, is all of it; copy it as it is, for the padding inside needs
 * no value. Programs may look at every field, and set any: what is out of range ends the next call with number 1.
 */
struct handset {
    struct handset_small small; /* all of it but the arrays */
    uint8_t text[104];          /* 5 rows of 16 codes, row after row, then the large line of 24; each 0x20 to 0xFF */
    uint8_t picture[672];       /* 7 rows of 96 columns; in row 6 below 32. The lowest bit of a column is its top dot */
    uint8_t frame[250];         /* the bytes of an open frame, none of them 0x1B or 0x0D, and 0 past its length */
};

/* ---- What calls store at an address ---- */

/* The part of a stream that stands at a place [3]. Where there is none, all three places are the one that was asked for. */
struct handset_part {
    uint8_t kind;      /* enum handset_kind */
    uint64_t end;      /* where the next part begins */
    uint64_t body;     /* of a frame: where the bytes behind its ESC begin; of a single byte as `end` */
    uint64_t body_end; /* of a frame: where they end, before the CR that closes it; of a single byte as `end` */
};

/* What a panel of the icon bar shows. */
struct handset_panel {
    uint8_t panel; /* of messages enum handset_sms, of the volume enum handset_sound */
    uint8_t level; /* 0 to 10; 0 where there is none */
};

/* The icon bar. */
struct handset_bar {
    uint8_t f;      /* signal strength, as in struct handset_icons: 0 to 6 */
    uint8_t p;      /* missed calls: 0 to 19 */
    uint8_t r;      /* roaming: 0 to 1 */
    uint8_t sms;    /* enum handset_sms */
    uint8_t volume; /* enum handset_sound */
    uint8_t level;  /* of the volume: 0 to 10 */
};

/* What a display row shows. All that its owner does not use is 0. */
struct handset_row {
    uint8_t owner;              /* enum handset_owner */
    uint8_t place;              /* the row, or half of the large line, of the owner */
    bool inverse;               /* whether it is a text row that is seen inverse */
    uint8_t codes[16];          /* of a text row and of the small line 16, of the big line 8: each 0x20 to 0xFF */
    uint8_t columns[96];        /* of a picture row; with the rocker 0 in columns 42 to 53 */
    struct handset_bar bar;     /* of the icon bar */
    struct handset_label left;  /* of the soft keys */
    struct handset_label right; /* of the soft keys */
    uint8_t w;                  /* icon W, of the soft keys and of a picture with the rocker: 0 to 3 */
};

/* What a place of the display shows. */
struct handset_column {
    uint8_t owner;          /* enum handset_owner */
    uint8_t place;          /* the row, or half of the large line, of the owner */
    uint8_t shown;          /* enum handset_shown */
    uint8_t value;          /* the code, the column or icon W */
    bool inverse;           /* whether it is of a text row that is seen inverse */
    struct handset_bar bar; /* of the icon bar, else 0 */
};

/* What becomes of a frame on a record. */
struct handset_verdict {
    uint8_t verdict;     /* enum handset_judged */
    uint16_t number_out; /* of a frame that is passed over: its first number that is out of range, 0 to 999 */
};

/* ---- The interface ---- */

/* The HANDSET_INTERFACE of the header that the archive was made with. Where it is another than yours, make no other call. */
HANDSET_RESULT uint32_t handset_interface(void);

/* ---- Power-on ---- */

/* Stores the power-on record. */
void handset_power_on(struct handset *h);

/* The same with the former defaults of the key times: Time2 is 12, so that a key which is held down repeats. */
void handset_power_on_former(struct handset *h);

/* Stores the power-on record of the sister, the handset of AN1900, as she is delivered. */
void handset_sister_power_on(struct handset *h);

/* ---- Calls of a handset. For a record out of range each ends with 1. ---- */

/* Whether all fields of a record are in their ranges. */
HANDSET_RESULT bool handset_in_range(const struct handset *h);

/*
 * The stream call [3]: takes `count` bytes from the cord and puts answers in the room, which has `size` places. It stops before the
 * byte whose whole answer has no place in the room; else it uses all bytes. `used` is how many it took: offer the others again, before
 * new ones. `written` is how many bytes of the room hold answers: send them; the rest of the room stays as it was. How a stream is cut
 * into calls makes no difference. With less room than HANDSET_LONGEST_ANSWER it never gets past the question for the version. It goes
 * by the record's edition; &00 restarts the sister, and the bytes after it are read on. Ends with 0, 1.
 */
HANDSET_RESULT uint8_t handset_feed(struct handset *h, const uint8_t *bytes, uint64_t count, uint8_t *room, uint64_t size, uint64_t *used,
                                    uint64_t *written);

/*
 * The key log [6]: for each entry a reading of the 10 ms clock and an edge, enum handset_edge. It puts key codes in the room, and stops
 * before the entry whose code has no place there; `used` and `written` as above. The sister sends messages of HANDSET_MESSAGE_SIZE
 * bytes in place of codes, each whole. The two counts are to be the same: else it ends with 5, and with 4 for an edge that is not listed,
 * anywhere in the log. Ends with 0, 1, 4, 5.
 */
HANDSET_RESULT uint8_t handset_take_log(struct handset *h, const uint16_t *ticks, uint64_t tick_count, const uint8_t *edges,
                                        uint64_t edge_count, uint8_t *room, uint64_t size, uint64_t *used, uint64_t *written);

/* A second passes [7]: one of the backlight's seconds is taken off, if one is left. Ends with 0, 1. */
HANDSET_RESULT uint8_t handset_second(struct handset *h);

/* The same on a backlight alone, which is judged by the first edition's ranges. Ends with 0, 1. */
HANDSET_RESULT uint8_t handset_light_second(struct handset_backlight *light);

/* The handset is lifted (on is 0) or hung up (any other number) [7]. Ends with 0, 1. */
HANDSET_RESULT uint8_t handset_hook(struct handset *h, uint8_t on);

/*
 * How much room the answers to these bytes can need where no frame is a question [3]. For each question add its answer's length: 6
 * at most for IA, 5 for IH, 29 for &V; of the sister HANDSET_LONGEST_ANSWER at most. Ends with 0, 1.
 */
HANDSET_RESULT uint8_t handset_room_needed(const struct handset *h, const uint8_t *bytes, uint64_t count, uint64_t *needed);

/*
 * What would become of a frame, all between ESC and CR, if it came now [4, 12]: by the record's edition, and for the sister also by what
 * stands in it. Ends with 0, 1.
 */
HANDSET_RESULT uint8_t handset_judge_in(const struct handset *h, const uint8_t *bytes, uint64_t count, struct handset_verdict *judged);

/* ---- What is seen [8]. phase is enum handset_phase. ---- */

/* What the SMS panel shows, whether or not the display is on. Ends with 0, 1. */
HANDSET_RESULT uint8_t handset_sms_seen(const struct handset *h, uint8_t phase, struct handset_panel *seen);

/* What the volume panel shows, whether or not the display is on. Ends with 0, 1. */
HANDSET_RESULT uint8_t handset_volume_seen(const struct handset *h, struct handset_panel *seen);

/* Who owns a display row, 0 to 6, and what it shows. Ends with 0, 1, and with 4 for a row above 6. */
HANDSET_RESULT uint8_t handset_row_seen(const struct handset *h, uint8_t row, uint8_t phase, struct handset_row *seen);

/* Who owns a place, row 0 to 6 and column 0 to 95, and what stands there. Ends with 0, 1, and with 4 for a row above 6 or a column
 * above 95. */
HANDSET_RESULT uint8_t handset_column_seen(const struct handset *h, uint8_t row, uint8_t column, uint8_t phase,
                                           struct handset_column *seen);

/*
 * ---- Writers [9], for a collector. Each writes ESC, the frame, CR LF at the start of the room, whole or not at all, and leaves every
 * place past it; `written` is its length. It ends with 2 for what is out of range, then with 3 for a frame longer than the room.
 * HANDSET_LONGEST_WRITTEN is room enough. ----
 */

/* A command: kind is enum handset_command, and any other number is out of range. */
HANDSET_RESULT uint8_t handset_write_command(uint8_t kind, uint16_t a, uint16_t b, uint8_t *room, uint64_t size, uint64_t *written);

/* A command in the sister's spelling: kind is enum handset_sister_command or enum handset_command, and any other number is out of range. */
HANDSET_RESULT uint8_t handset_write_sister_command(uint8_t kind, uint16_t a, uint16_t b, uint8_t *room, uint64_t size, uint64_t *written);

/* A label, for either handset: side is enum handset_side, codes are 0 to 7, each 0x20 to 0xFF. */
HANDSET_RESULT uint8_t handset_write_label(uint8_t side, const uint8_t *codes, uint64_t count, uint8_t *room, uint64_t size,
                                           uint64_t *written);

/* A picture row, for either handset, 0 to 6, from its column 0 on: 1 to 96 columns, in row 6 below 32. */
HANDSET_RESULT uint8_t handset_write_picture_row(uint8_t row, const uint8_t *columns, uint64_t count, uint8_t *room, uint64_t size,
                                                 uint64_t *written);

/* ---- Questions about a stream, without a record. None can be refused: each hands back its answer. ---- */

/*
 * What becomes of a frame of the first edition, all between ESC and CR, in a text mode [4]: enum handset_judged. At `number_out` it
 * stores the first number that is out of range, 0 to 999, of one that is passed over, else 0.
 */
HANDSET_RESULT uint8_t handset_judge(uint8_t mode, const uint8_t *frame, uint64_t count, uint16_t *number_out);

/*
 * Whether a collector's stream keeps the rules of the choice screen [11]: enum handset_rule, 0 for yes, else the rule that is broken
 * first. At `offset` it stores where, at most the stream's length, and 0 for yes.
 */
HANDSET_RESULT uint8_t handset_check_choice(const uint8_t *bytes, uint64_t count, uint64_t *offset);

/*
 * The part of a stream that stands at a place [3]: enum handset_kind, which is stored too. All the parts, from place 0 on and each from
 * the end of the one before, are the stream.
 */
HANDSET_RESULT uint8_t handset_part_at(const uint8_t *bytes, uint64_t count, uint64_t place, struct handset_part *part);

#ifdef __cplusplus
}
#endif

#endif
