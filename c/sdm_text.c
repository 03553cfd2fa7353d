/* What each status and code says: the calls of sdm.h that the crate sdm_c doesn't have. They are compiled beside the
 * crate's library, and not in the header, so that the words stand once in a program, and Ada can ask for them too. */
#include "sdm.h"

const char *sdm_status_text(uint32_t status) {
    switch ((enum sdm_status)status) {
    case SDM_DONE:
        return "done";
    case SDM_CLOSED:
        return "the handle has no supervisor";
    case SDM_IN_USE:
        return "the handle has a supervisor already";
    case SDM_NO_MEMORY:
        return "memory is wanting";
    case SDM_BAD_DATA:
        return "the data break a rule";
    case SDM_REFUSED:
        return "the slopes or the first authority are refused";
    case SDM_OUT_OF_RANGE:
        return "a number is outside its range";
    case SDM_TIME_BACK:
        return "the reading's time is before that of the last one taken";
    case SDM_SVL_BEFORE_EOA:
        return "the supervised location lies before the end of authority";
    case SDM_BEYOND_TRACK:
        return "the supervised location or the limit lies past the track's end";
    case SDM_BAD_SPEED:
        return "the limit's speed is 0 or too high, or the release speed is too high";
    case SDM_BAD_TRIP:
        return "the trip's place lies before the end of authority or past the supervised location";
    case SDM_FULL:
        return "as many restrictions as may be are held";
    case SDM_ID_IN_USE:
        return "a restriction with this identity is held";
    case SDM_BAD_PLACES:
        return "the restriction ends at or before its start, or past the track's end";
    case SDM_UNKNOWN_ID:
        return "no restriction with this identity is held";
    case SDM_NOT_FRESH:
        return "the next supervisor has had a reading or a restriction";
    }
    return "no status of this library";
}

const char *sdm_state_text(uint32_t state) {
    switch ((enum sdm_state)state) {
    case SDM_CEILING:
        return "ceiling speed monitoring";
    case SDM_TARGET:
        return "target speed monitoring";
    case SDM_RELEASE:
        return "release speed monitoring";
    }
    return "no state of this library";
}

const char *sdm_supervision_text(uint32_t supervision) {
    switch ((enum sdm_supervision)supervision) {
    case SDM_NORMAL:
        return "normal";
    case SDM_INDICATION:
        return "indication";
    case SDM_OVERSPEED:
        return "overspeed";
    case SDM_WARNING:
        return "warning";
    case SDM_INTERVENTION:
        return "intervention";
    }
    return "no supervision status of this library";
}

const char *sdm_rule_text(uint32_t rule) {
    switch ((enum sdm_rule)rule) {
    case SDM_NO_RULE:
        return "none";
    case SDM_ABOVE_CEILING:
        return "above the ceiling";
    case SDM_PAST_TARGET:
        return "past the limit of a target";
    case SDM_PAST_END:
        return "past the end of authority";
    case SDM_ABOVE_RELEASE:
        return "above the release speed";
    case SDM_NO_SERVICE_BRAKE:
        return "past a limit of the service brake, which isn't in use";
    }
    return "no rule of this library";
}

const char *sdm_field_text(uint32_t field) {
    switch ((enum sdm_field)field) {
    case SDM_NO_FIELD:
        return "none";
    case SDM_READING_TIME_DS:
        return "time_ds of the reading: 0 to 100,000,000";
    case SDM_READING_EST_MM:
        return "est_mm of the reading: -10,000,000 to 110,000,000";
    case SDM_READING_MIN_MM:
        return "min_mm of the reading: -10,000,000 to est_mm";
    case SDM_READING_MAX_MM:
        return "max_mm of the reading: est_mm to 110,000,000";
    case SDM_READING_SPEED_MM_S:
        return "speed_mm_s of the reading: 0 to 138,888";
    case SDM_READING_ACCEL_CM_S2:
        return "accel_cm_s2 of the reading: -300 to 300";
    case SDM_READING_UNDER_MM_S:
        return "under_mm_s of the reading: 0 to 10,000";
    case SDM_RESTRICTION_ID:
        return "id of the restriction: 0 to 65,535";
    case SDM_RESTRICTION_SPEED_KMH:
        return "speed_kmh of the restriction: 1 to 500";
    case SDM_RESTRICTION_IS_DELAYED:
        return "is_delayed of the restriction: 0 or 1";
    case SDM_ALLOWANCE_FRONT_MM:
        return "front_mm of the allowance: 0 to 10,000,000";
    case SDM_ALLOWANCE_SPEED_MM_S:
        return "speed_mm_s of the allowance: 0 to 10,000";
    case SDM_ALLOWANCE_ACCEL_CM_S2:
        return "accel_cm_s2 of the allowance: 0 to 300";
    }
    return "no field of this library";
}
