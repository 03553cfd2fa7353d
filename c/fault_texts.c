/* What is told for people: the texts of numbers, and which field of a struct is outside its range. A part of the program
 * `fault`. */
#include "fault.h"

#include <string.h>

/* Each number up to the last has a text of its own, and each that is none has one and the same. */
static void tell_each(const char *(*text)(uint32_t number), uint32_t last, const char *of) {
    for (uint32_t one = 0; one <= last + 1; one++)
        for (uint32_t other = 0; other < one; other++)
            check(strcmp(text(one), text(other)) != 0, "it is its own", of);
    check(strcmp(text(last + 1), text(UINT32_MAX)) == 0, "it is that of none", of);
}

void tell_texts(void) {
    tell_each(sdm_status_text, SDM_NOT_FRESH, "the text of a status");
    tell_each(sdm_state_text, SDM_RELEASE, "the text of a state");
    tell_each(sdm_supervision_text, SDM_INTERVENTION, "the text of a supervision status");
    tell_each(sdm_rule_text, SDM_NO_SERVICE_BRAKE, "the text of a rule");
    tell_each(sdm_field_text, SDM_ALLOWANCE_ACCEL_CM_S2, "the text of a field");
}

static void name_of_readings(void) {
    static const struct {
        struct sdm_reading reading;
        uint32_t due;
        const char *what;
    } given[] = {
        {{100000000, 110000000, -10000000, 110000000, 138888, -300, 10000}, SDM_NO_FIELD, "the greatest reading"},
        {{0, -10000000, -10000000, -10000000, 0, 300, 0}, SDM_NO_FIELD, "the least reading"},
        {{100000001, 0, 1, -1, 138889, 301, 10001}, SDM_READING_TIME_DS, "a reading with each number out of range"},
        {{0, 110000001, 0, 0, 0, 0, 0}, SDM_READING_EST_MM, "an estimated front end past its range"},
        {{0, -10000001, 0, 0, 0, 0, 0}, SDM_READING_EST_MM, "an estimated front end before its range"},
        {{0, 0, 1, -1, 0, 0, 0}, SDM_READING_MIN_MM, "a min safe front end past the estimated one"},
        {{0, 0, -10000001, 0, 0, 0, 0}, SDM_READING_MIN_MM, "a min safe front end before its range"},
        {{0, 0, 0, -1, 138889, 0, 0}, SDM_READING_MAX_MM, "a max safe front end before the estimated one"},
        {{0, 0, 0, 110000001, 0, 0, 0}, SDM_READING_MAX_MM, "a max safe front end past its range"},
        {{0, 0, 0, 0, 138889, 301, 0}, SDM_READING_SPEED_MM_S, "a speed above its range"},
        {{0, 0, 0, 0, 0, 301, 10001}, SDM_READING_ACCEL_CM_S2, "an acceleration above its range"},
        {{0, 0, 0, 0, 0, -301, 0}, SDM_READING_ACCEL_CM_S2, "an acceleration below its range"},
        {{0, 0, 0, 0, 0, 0, 10001}, SDM_READING_UNDER_MM_S, "an under-reading amount above its range"},
    };
    for (size_t i = 0; i < sizeof given / sizeof given[0]; i++)
        check(sdm_reading_field(&given[i].reading) == given[i].due, "the field that is due is named", given[i].what);
}

static void name_of_restrictions(void) {
    static const struct {
        struct sdm_restriction restriction;
        uint32_t due;
    } given[] = {
        {{65535, 1, 0, 500, 1}, SDM_NO_FIELD}, /* its places are the supervisor's to test */
        {{65536, 0, 1, 0, 2}, SDM_RESTRICTION_ID},      {{0, 0, 1, 0, 2}, SDM_RESTRICTION_SPEED_KMH},
        {{0, 0, 1, 501, 0}, SDM_RESTRICTION_SPEED_KMH}, {{0, 0, 1, 1, 2}, SDM_RESTRICTION_IS_DELAYED},
    };
    for (size_t i = 0; i < sizeof given / sizeof given[0]; i++)
        check(sdm_restriction_field(&given[i].restriction) == given[i].due, "the field that is due is named",
              "a restriction");
}

static void name_of_allowances(void) {
    static const struct {
        struct sdm_allowance allowance;
        uint32_t due;
    } given[] = {
        {{10000000, 10000, 300}, SDM_NO_FIELD},
        {{10000001, 10001, 301}, SDM_ALLOWANCE_FRONT_MM},
        {{0, 10001, 301}, SDM_ALLOWANCE_SPEED_MM_S},
        {{0, 0, 301}, SDM_ALLOWANCE_ACCEL_CM_S2},
    };
    for (size_t i = 0; i < sizeof given / sizeof given[0]; i++)
        check(sdm_allowance_field(&given[i].allowance) == given[i].due, "the field that is due is named",
              "an allowance");
}

void name_fields(void) {
    name_of_readings();
    name_of_restrictions();
    name_of_allowances();
}
