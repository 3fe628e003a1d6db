/*
 * Finds by trial which values the range question takes in each field of the record, and prints a line a field in the order of document
 * 01's table. A record is put to the question for each value, the other fields as the line says (at power-on where it says nothing). Of
 * an array every place named is tried with every value, and so is a flag: C can't keep a program from one that is neither 0 nor 1.
 * A second block tells the same of the sister's record, from her power-on on. Behind them are lines for each call that is lent a record:
 * which values it takes in the record's flags, and in those of the edition; then the same of the sister's. All others it must refuse with
 * number 1, leave what it was lent as it was, and store zero as its answer; a line on which it does not says so.
 */
#include "handset.h"

#include <stddef.h>
#include <stdio.h>
#include <string.h>

enum { BYTE_VALUES = 256, TICK_VALUES = 65536, FILLING = 0x41, UNSTORED = 0xAA };

static struct handset record;
static struct handset_settings *const settings = &record.small.settings;
static struct handset_edition *const edition = &record.small.edition;

/* Stands before the names of the sister's lines. */
static const char *whose = "";

/* ---- A line ---- */

/* Where the run of values that are taken began, if one is open; whether any value was taken. */
static bool open_run, any_taken;
static unsigned first;

static void begin(const char *name)
{
    printf("%s%s:", whose, name);
    any_taken = false;
}

static void end_run(unsigned next)
{
    if (open_run) printf(" %u", first);
    if (open_run && first + 1 < next) printf("-%u", next - 1);
    open_run = false;
}

/* So many of the places take the value. One that some take and some do not is said so. */
static void add(unsigned value, size_t takers, size_t places)
{
    if (takers > 0 && takers < places) printf(" (not everywhere)");
    if (takers < places)
        end_run(value);
    else if (!open_run) {
        open_run = any_taken = true;
        first = value;
    }
}

static void end(unsigned values)
{
    end_run(values);
    printf("%s\n", any_taken ? "" : " none");
}

/* ---- Values that are in range ---- */

/* Of all places each is tried by itself. */
static void list(const char *name, void *field, size_t places)
{
    uint8_t *bytes = field;
    begin(name);
    for (unsigned value = 0; value < BYTE_VALUES; value++) {
        size_t takers = 0;
        for (size_t i = 0; i < places; i++) {
            uint8_t before = bytes[i];
            bytes[i] = (uint8_t)value;
            takers += handset_in_range(&record);
            bytes[i] = before;
        }
        add(value, takers, places);
    }
    end(BYTE_VALUES);
}

static void list_tick(const char *name, struct handset_tick *tick)
{
    begin(name);
    for (unsigned value = 0; value < TICK_VALUES; value++) {
        tick->tick = (uint16_t)value;
        add(value, handset_in_range(&record), 1);
    }
    tick->tick = 0;
    end(TICK_VALUES);
}

/* The first places of an array are filled, and its length is so many. */
static void fill(uint8_t *array, size_t places, uint8_t *len, unsigned filled)
{
    for (size_t i = 0; i < places; i++) array[i] = i < filled ? FILLING : 0;
    *len = (uint8_t)filled;
}

/* The lengths that are taken when just so many places are filled. */
static void list_lengths(const char *name, uint8_t *array, size_t places, uint8_t *len)
{
    begin(name);
    for (unsigned value = 0; value < BYTE_VALUES; value++) {
        fill(array, places, len, value);
        add(value, handset_in_range(&record), 1);
    }
    fill(array, places, len, 0);
    end(BYTE_VALUES);
}

static void list_in_mode(const char *name, uint8_t mode, uint8_t *field)
{
    settings->screen.mode = mode;
    list(name, field, 1);
    settings->screen.mode = HANDSET_MODE_0;
}

static void list_screen(void)
{
    struct handset_screen *screen = &settings->screen;
    list("display", &screen->display, 1);
    list("text mode", &screen->mode, 1);
    list("overlay (0 none)", &screen->overlay, 1);
    list("cursor shown", &settings->shown, 1);
    list_in_mode("cursor row in mode 0", HANDSET_MODE_0, &screen->row);
    list_in_mode("cursor row in mode 1", HANDSET_MODE_1, &screen->row);
    list_in_mode("cursor row in mode 5", HANDSET_MODE_5, &screen->row);
    list_in_mode("cursor row in mode 6", HANDSET_MODE_6, &screen->row);
    list_in_mode("cursor row in mode 10", HANDSET_MODE_LARGE, &screen->row);
    list("cursor column", &screen->column, 1);
    list_in_mode("cursor column in mode 10", HANDSET_MODE_LARGE, &screen->column);
    list("text, 80 places", record.text, 80);
    list("large line, 24 places", record.text + 80, 24);
}

static void list_label(const char *length, const char *used, const char *unused, struct handset_label *label)
{
    list_lengths(length, label->codes, HANDSET_LABEL_SIZE, &label->len);
    fill(label->codes, HANDSET_LABEL_SIZE, &label->len, 3);
    list(used, label->codes, 3);
    list(unused, label->codes + 3, HANDSET_LABEL_SIZE - 3);
    fill(label->codes, HANDSET_LABEL_SIZE, &label->len, 0);
}

static void list_icons(void)
{
    list("icon S", &settings->icons.s, 1);
    list("icon U", &settings->icons.u, 1);
    list("icon F", &settings->icons.f, 1);
    list("icon R", &settings->icons.r, 1);
    list("icon P", &settings->icons.p, 1);
    list("icon W", &settings->icons.w, 1);
}

static void list_with(const char *name, uint8_t which, uint8_t level, void *field)
{
    settings->volume.which = which;
    settings->volume.level = level;
    list(name, field, 1);
    settings->volume.which = HANDSET_WHICH_NONE;
    settings->volume.level = 0;
}

static void list_volume(void)
{
    struct handset_volume *volume = &settings->volume;
    list("volume which at level 0 (0 none)", &volume->which, 1);
    list_with("volume which at level 5 (1 private, 2 handsfree)", HANDSET_WHICH_NONE, 5, &volume->which);
    list("volume level with none", &volume->level, 1);
    list_with("volume level with private", HANDSET_WHICH_PRIVATE, 5, &volume->level);
    list_with("volume level with handsfree", HANDSET_WHICH_HANDSFREE, 5, &volume->level);
    list("volume mute", &volume->mute, 1);
    list("volume hidden with none", &volume->hidden, 1);
    list_with("volume hidden with private", HANDSET_WHICH_PRIVATE, 5, &volume->hidden);
    list_with("volume hidden with handsfree", HANDSET_WHICH_HANDSFREE, 5, &volume->hidden);
}

/* A field of the light in a mode; PWM is off. */
static void list_in_light(const char *name, uint8_t mode, void *field)
{
    uint8_t before = settings->backlight.mode;
    bool pwm = edition->pwm;
    settings->backlight.mode = mode;
    edition->pwm = false;
    list(name, field, 1);
    settings->backlight.mode = before;
    edition->pwm = pwm;
}

static void list_settings(void)
{
    list("Time1", &settings->times.time1, 1);
    list("Time2", &settings->times.time2, 1);
    list("buzzer", &settings->buzzer, 1);
    list("backlight mode (0 off, 1 on, 2 auto)", &settings->backlight.mode, 1);
    list("backlight duration", &settings->backlight.duration, 1);
    list_in_light("backlight left when off", HANDSET_LIGHT_OFF, &settings->backlight.left);
    list_in_light("backlight left when on", HANDSET_LIGHT_ON, &settings->backlight.left);
    list_in_light("backlight left in auto", HANDSET_LIGHT_AUTO, &settings->backlight.left);
    list("keypad flag", &settings->backlight.keypad, 1);
    list("contrast", &settings->contrast, 1);
    list("hook", &settings->hook, 1);
}

static void list_marks(void)
{
    bool *marks = settings->inverse;
    list("inverse mark of rows 0-4", marks, 5);
    marks[0] = true;
    list("inverse mark of rows 1-4 with that of row 0", marks + 1, 4);
    marks[0] = false;
    marks[4] = true;
    list("inverse mark of rows 0-3 with that of row 4", marks, 4);
    marks[4] = false;
}

static void list_held(void)
{
    struct handset_held *held = &record.small.held;
    list("key held", &held->down, 1);
    list("held key with none", &held->key, 1);
    held->down = true;
    list("held key when held", &held->key, 1);
    held->down = false;
    list_tick("held tick with none", &held->tick);
    held->down = true;
    list_tick("held tick when held", &held->tick);
    held->down = false;
    list("stage with none (0 short, 1 long)", &held->long_stage, 1);
    held->down = true;
    list("stage when held", &held->long_stage, 1);
    held->down = false;
}

static void list_frame_lengths(const char *name, uint8_t state)
{
    record.small.state = state;
    list_lengths(name, record.frame, HANDSET_FRAME_SIZE, &record.small.len);
    record.small.state = HANDSET_FRAME_NONE;
}

static void list_frame(void)
{
    list("frame state (0 none, 1 open, 2 overlong)", &record.small.state, 1);
    list_frame_lengths("frame length with none", HANDSET_FRAME_NONE);
    list_frame_lengths("frame length when open", HANDSET_FRAME_OPEN);
    list_frame_lengths("frame length when overlong", HANDSET_FRAME_OVERLONG);
    record.small.state = HANDSET_FRAME_OPEN;
    fill(record.frame, HANDSET_FRAME_SIZE, &record.small.len, 100);
    list("frame used places", record.frame, 100);
    list("frame unused places", record.frame + 100, HANDSET_FRAME_SIZE - 100);
    fill(record.frame, HANDSET_FRAME_SIZE, &record.small.len, 0);
    record.small.state = HANDSET_FRAME_NONE;
}

static void list_edition(void)
{
    struct handset_keys *keys = &edition->keys;
    list("sister", &edition->sister, 1);
    list("brightness", &edition->brightness, 1);
    list("speaker volume", &edition->speaker, 1);
    list_in_light("PWM flag when off", HANDSET_LIGHT_OFF, &edition->pwm);
    list_in_light("PWM flag when on", HANDSET_LIGHT_ON, &edition->pwm);
    list_in_light("PWM flag in auto", HANDSET_LIGHT_AUTO, &edition->pwm);
    list("PTT", &edition->ptt, 1);
    list("stage of keys with none in the set (0 none, 1 short, 2 long, 3 false)", &keys->stage, 1);
    keys->down = 1;
    list("stage of keys with one in the set", &keys->stage, 1);
    keys->down = 0;
}

/* The keys in a stage. In the stage false key 0 is in the set. */
static void list_keys(uint8_t stage, const char *key, const char *tick, const char *set)
{
    struct handset_keys *keys = &edition->keys;
    keys->stage = stage;
    keys->down = stage == HANDSET_STAGE_FALSE;
    list(key, &keys->key, 1);
    list_tick(tick, &keys->tick);
    if (set != NULL) list(set, &keys->down, sizeof keys->down);
    keys->stage = HANDSET_STAGE_NONE;
    keys->down = 0;
}

/* A set is tried byte by byte, since all of its values would take too long: where the lowest comes first. Keys 0 to 7 are in the first. */
static void list_sets(void)
{
    uint8_t *set = (uint8_t *)&edition->keys.down;
    edition->keys.stage = HANDSET_STAGE_FALSE;
    list("set of keys 0-7 when false, with no other key", set, 1);
    list("set of keys 8-15 when false, with no other key", set + 1, 1);
    list("set of keys 16-23 when false, with no other key", set + 2, 1);
    set[0] = 1;
    list("set of keys 8-15 when false, with key 0", set + 1, 1);
    list("set of keys 16-23 when false, with key 0", set + 2, 1);
    list("set of keys 24-31 when false, with key 0", set + 3, 1);
    set[0] = 0;
    edition->keys.stage = HANDSET_STAGE_NONE;
}

/* Her times rest on each other. */
static void list_times(void)
{
    struct handset_times before = settings->times;
    settings->times.time2.tenths = 0;
    list("Time1 with Time2 0", &settings->times.time1, 1);
    settings->times.time1.tenths = 0;
    list("Time2 with Time1 0", &settings->times.time2, 1);
    settings->times = before;
}

/* ---- Flags that calls take ---- */

/* What calls are lent beside the record: a frame that is answered in both editions, a key that has a code, and places for answers. */
static const uint8_t question[] = {0x1B, 'I', 'H', '\r'};
static const uint16_t ticks[] = {7};
static const uint8_t edges[] = {HANDSET_PRESS + HANDSET_KEY_1};
static uint8_t room[HANDSET_LONGEST_ANSWER];
static uint64_t counts[2];
static struct handset_panel panel;
static struct handset_row row;
static struct handset_column column;

static uint8_t feed(void)
{
    return handset_feed(&record, question, sizeof question, room, sizeof room, &counts[0], &counts[1]);
}

static uint8_t take_log(void)
{
    return handset_take_log(&record, ticks, 1, edges, 1, room, sizeof room, &counts[0], &counts[1]);
}

static uint8_t second(void)
{
    return handset_second(&record);
}

static uint8_t light_second(void)
{
    return handset_light_second(&settings->backlight);
}

static uint8_t hook(void)
{
    return handset_hook(&record, 0);
}

static uint8_t room_needed(void)
{
    return handset_room_needed(&record, question, sizeof question, &counts[0]);
}

static uint8_t sms_seen(void)
{
    return handset_sms_seen(&record, HANDSET_LIT, &panel);
}

static uint8_t volume_seen(void)
{
    return handset_volume_seen(&record, &panel);
}

static uint8_t row_seen(void)
{
    return handset_row_seen(&record, 0, HANDSET_LIT, &row);
}

static uint8_t column_seen(void)
{
    return handset_column_seen(&record, 0, 0, HANDSET_LIT, &column);
}

/*
 * That of the backlight is first, since one call is lent no other; those of the held key are last, which the sister's record has not.
 * Those of the edition are apart: in the first edition 1 is out of their range, but for the first, which makes it hers.
 */
static bool *const flags[] = {
    &record.small.settings.backlight.keypad,
    &record.small.settings.screen.display,
    &record.small.settings.shown,
    &record.small.settings.volume.mute,
    &record.small.settings.volume.hidden,
    &record.small.settings.hook,
    &record.small.settings.inverse[0],
    &record.small.settings.inverse[1],
    &record.small.settings.inverse[2],
    &record.small.settings.inverse[3],
    &record.small.settings.inverse[4],
    &record.small.held.down,
    &record.small.held.long_stage,
};
static bool *const edition_flags[] = {
    &record.small.edition.sister,
    &record.small.edition.pwm,
    &record.small.edition.ptt,
};

static const struct group {
    const char *name;
    bool *const *flags;
    size_t count;
    bool sister; /* whether it is of her record */
} of_record = {"flags, 13 places, by ", flags, 13, false},
  of_edition = {"flags of the edition, 3 places, by ", edition_flags, 3, false},
  of_light = {"keypad flag by ", flags, 1, false},
  of_sister[] = {
      {"the sister's flags, 11 places, by ", flags, 11, true},
      {"the sister's flags of the held key, 2 places, by ", flags + 11, 2, true},
      {"whether it is the sister, from hers, by ", edition_flags, 1, true},
      {"the sister's flags of the edition, 2 places, by ", edition_flags + 1, 2, true},
  };

struct call {
    const char *name;
    uint8_t (*make)(void);
    const struct group *group;
    void *answer; /* what it stores its answer at, NULL if it has none */
    size_t size;
};

static bool all_are(uint8_t value, const void *places, size_t count)
{
    const uint8_t *bytes = places;
    for (size_t i = 0; i < count; i++)
        if (bytes[i] != value) return false;
    return true;
}

static bool same_places(const struct handset *one, const struct handset *other, size_t from, size_t end)
{
    return memcmp((const uint8_t *)one + from, (const uint8_t *)other + from, end - from) == 0;
}

/* The padding may have changed: its value means nothing. */
#define AT(field) offsetof(struct handset, field)
static bool same(const struct handset *one, const struct handset *other)
{
    return same_places(one, other, AT(small), AT(small.held.long_stage) + 1) &&
           same_places(one, other, AT(small.state), AT(small.len) + 1) &&
           same_places(one, other, AT(small.edition), AT(small.edition.ptt) + 1) &&
           same_places(one, other, AT(small.edition.keys), AT(frame) + HANDSET_FRAME_SIZE);
}

/* Whether the call takes the record. If not, it must have done nothing. */
static bool takes(const struct call *call)
{
    struct handset before = record, after;
    uint8_t number;
    memset(room, UNSTORED, sizeof room);
    if (call->answer != NULL) memset(call->answer, UNSTORED, call->size);
    number = call->make();
    after = record;
    record = before;
    if (number == HANDSET_DONE) return true;
    if (number != HANDSET_FIELD_OUT_OF_RANGE) printf(" (number %u)", number);
    if (!same(&after, &before) || !all_are(UNSTORED, room, sizeof room)) printf(" (something was changed)");
    if (!all_are(0, call->answer, call->size)) printf(" (an answer is not zero)");
    return false;
}

/* In the first edition a key is held, so that its stage may be either. So a record of hers is refused. */
static void list_flags(const struct call *call, const struct group *group)
{
    (group->sister ? handset_sister_power_on : handset_power_on)(&record);
    record.small.held.down = !group->sister;
    printf("%s", group->name);
    begin(call->name);
    for (unsigned value = 0; value < BYTE_VALUES; value++) {
        size_t takers = 0;
        for (size_t i = 0; i < group->count; i++) {
            bool before = *group->flags[i];
            *(uint8_t *)group->flags[i] = (uint8_t)value;
            takers += takes(call);
            *group->flags[i] = before;
        }
        add(value, takers, group->count);
    }
    end(BYTE_VALUES);
}

static const struct call calls[] = {
    {"handset_feed", feed, &of_record, counts, sizeof counts},
    {"handset_take_log", take_log, &of_record, counts, sizeof counts},
    {"handset_second", second, &of_record, NULL, 0},
    {"handset_light_second", light_second, &of_light, NULL, 0},
    {"handset_hook", hook, &of_record, NULL, 0},
    {"handset_room_needed", room_needed, &of_record, counts, sizeof counts[0]},
    {"handset_sms_seen", sms_seen, &of_record, &panel, sizeof panel},
    {"handset_volume_seen", volume_seen, &of_record, &panel, sizeof panel},
    {"handset_row_seen", row_seen, &of_record, &row, sizeof row},
    {"handset_column_seen", column_seen, &of_record, &column, sizeof column},
};

static void list_record(void)
{
    list_screen();
    list_label("left label length", "left label used places", "left label unused places", &settings->left);
    list_label("right label length", "right label used places", "right label unused places", &settings->right);
    list("picture rows 0-5, 576 places", record.picture, 576);
    list("picture row 6, 96 places", record.picture + 576, 96);
    list_icons();
    list_volume();
    list_settings();
    list_marks();
    list_held();
    list_frame();
    list_edition();
    list_keys(HANDSET_STAGE_NONE, "key of keys with none", "tick of keys with none", "set of keys with none, 4 places");
}

/* What only the sister's record has. */
static void list_sister(void)
{
    list_times();
    list_keys(HANDSET_STAGE_SHORT, "key of keys when short", "tick of keys when short", "set of keys when short, 4 places");
    list_keys(HANDSET_STAGE_LONG, "key of keys when long", "tick of keys when long", "set of keys when long, 4 places");
    list_keys(HANDSET_STAGE_FALSE, "key of keys when false", "tick of keys when false", NULL);
    list_sets();
}

int main(void)
{
    const size_t count = sizeof calls / sizeof calls[0];
    if (handset_interface() != HANDSET_INTERFACE) {
        printf("header and archive are of two interfaces\n");
        return 2;
    }
    handset_power_on(&record);
    list_record();
    whose = "the sister's ";
    handset_sister_power_on(&record);
    list_record();
    list_sister();
    whose = "";
    for (size_t i = 0; i < count; i++) {
        list_flags(&calls[i], calls[i].group);
        if (calls[i].group == &of_record) list_flags(&calls[i], &of_edition);
    }
    for (size_t i = 0; i < count; i++)
        for (size_t k = 0; k < 4 && calls[i].group == &of_record; k++) list_flags(&calls[i], &of_sister[k]);
    return 0;
}
