/* The words of each refusal: the column "Given when" of 01's table; and of the layer's errors. */
#include "table.h"

const char *vendorfinch_words(int number)
{
    switch (number) {
    case VENDORFINCH_NULL_SLICE: return "NULL with a length";
    case VENDORFINCH_NO_MEMORY: return "no memory";
    case 0: return "done";
    case VENDORFINCH_FILE_TOO_LONG: return "file above 16,777,216 bytes";
    case VENDORFINCH_MODEL_BAD: return "model bad";
    case VENDORFINCH_END_MISSING: return "last line has no LF, or ends in the mark";
    case VENDORFINCH_BYTE_NOT_PERMITTED: return "byte not permitted";
    case VENDORFINCH_CONT_MISSING: return "mark not followed by CONT and space";
    case VENDORFINCH_TEXT_ROOM: return "too little room for unfolded text or marks";
    case VENDORFINCH_CODE_EXPECTED: return "another line code expected, or no line left";
    case VENDORFINCH_MOTR: return "MOTR in place of MTID";
    case VENDORFINCH_NAME_WRONG: return "name wrong or not in order";
    case VENDORFINCH_TABLE_SKIPPED: return "mandatory table skipped";
    case VENDORFINCH_FIELD_COUNT: return "field missing or extra";
    case VENDORFINCH_UNDEFINED: return "undefined where not allowed, mixed coordinate";
    case VENDORFINCH_SHAPE_WRONG: return "field has wrong shape";
    case VENDORFINCH_OUTSIDE_DOMAIN: return "outside its domain, text too long";
    case VENDORFINCH_USED_TWICE: return "identification used twice";
    case VENDORFINCH_TABLE_ROOM: return "no room for a row, its cells or a point";
    case VENDORFINCH_NO_OBJECT: return "reference names no object of its table";
    case VENDORFINCH_FORM_WRONG: return "straight or arc not in the forms";
    case VENDORFINCH_UNWRITABLE: return "writing: no lines read as this table";
    case VENDORFINCH_WIDTH_WRONG: return "writing: width not 16 to 65,535";
    case VENDORFINCH_OUTPUT_ROOM: return "writing: output room or 16,777,216 bytes too small";
    default: return "no such number";
    }
}
