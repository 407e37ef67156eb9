/*
 * The module legumeyet._core: books, formatters and answers of the library for C, which is linked into it. It uses what every CPython since 3.8 has.
 *
 * A call holds the lock of the interpreter, the GIL, and runs nothing of Python while the library has a handle. So one call at a time has a handle,
 * whatever threads and signal handlers do. Three calls let go of the GIL: that which reads a book, whose handle nobody else has yet; format_all, for
 * CHUNK numbers at a time; and that which answers lines, for PIECE bytes of them. What these two use is marked as busy until then, unless it is a
 * shared formatter: of such a one any number of threads may be inside a call. Nothing else is shared by two interpreters.
 */
#define PY_SSIZE_T_CLEAN
#define Py_LIMITED_API 0x03080000
#include <Python.h>
#include <structmember.h>
#include <legumeyet.h>

/* The room of a text and the count of its parts at first, the magnitudes of numbers, how many digits are between these, and how many bits 32,768
 * digits have at most. */
enum { ROOM = 512, PLACES = 32, HIGHEST = 32767, LOWEST = -32768, SPAN = 65535, BITS = 108853 };

/* How many numbers of format_all are written together, from how many on other threads run meanwhile, how many bytes their digits have together
 * before one more is taken, and how much room each text has at first, and all together besides. */
enum { CHUNK = 4096, ASIDE = 64, DIGITS_AT_MOST = 1 << 20, EACH = 32, LEAST = 1 << 11 };

/* How many bytes of lines are answered together, and from how many on other threads run meanwhile. */
enum { PIECE = 1 << 16, PIECE_ASIDE = 1 << 10 };

/* What the objects of an interpreter share of Python: the types of this module, and from REFUSAL on what its modules in Python give to `use`. */
enum object { BOOK, FORMATTER, RULES, ANSWERS, REFUSAL, WRONG_NUMBER, PART_OF, ROW_OF, DECIMAL, SIGN, ROUNDING, TRAILING_ZEROS, PRIORITY, OBJECTS };

/* What the objects of an interpreter share. It is freed with the last of them, which may come after the module. */
struct shared {
    Py_ssize_t count;
    uint32_t forks; /* how often this process is a child of a fork since the module was imported */
    PyObject *objects[OBJECTS];
};

/* The options of a call: the words of legumeyet_options, and behind them the power of ten that an integer is times. */
enum { ROUNDING_WORD = 1, POSITION_WORD, INCREMENT_WORD, LEAST_WORD = 7, MOST_WORD, PRIORITY_WORD, WORDS = sizeof(legumeyet_options) / sizeof(int32_t), EXPONENT = WORDS };
struct options {
    int32_t words[WORDS + 1];
    size_t count; /* WORDS where there are some, and 0 where they are the formatter's own */
};
#define OPTIONS(of) (const legumeyet_options *)(of).words, (of).count

/* A book, a formatter, plural rules, which are one that writes words, or answers. */
struct open {
    PyObject_HEAD
    struct shared *shared; /* NULL before it is opened for the first time */
    enum object kind;
    union {
        legumeyet_book book;
        legumeyet_formatter formatter;
        legumeyet_shared_formatter shared;
        legumeyet_answers answers;
    } handle; /* the handles begin alike, so each tells whether it is open */
    bool is_shared;          /* whether it is a shared formatter */
    struct options options;  /* those of each call, where it has no others */
    PyThread_type_lock next; /* held by who waits for a call that is without the GIL: that does not go on before */
    PyThread_type_lock lock; /* held while a call is without the GIL */
    bool is_busy;            /* whether it is; written under the GIL */
    uint32_t forks;          /* `forks` of `shared` when it was last so */
};

/* What is asked of the library. */
struct request {
    enum { TEXT, INTEGER, REAL, SHOWN, EXACT, RANGE, READ, LENIENT, FACT, LINE, LOCALE, FOUND, NORMAL, MEANING, NAME } what;
    const uint8_t *at; /* the text of a number, a text that is read, a line, a skeleton, or the name of a locale */
    size_t length;
    int64_t integer;   /* also the index of a locale, or the number of an error or a fact */
    double real;
    struct options options;
    PyObject *given;   /* what was given, lent, or NULL: an error tells it */
    Py_ssize_t place;  /* the place of a number among many, and of a word in a skeleton, from 1 on; 0 of one alone */
    PyObject *owner;   /* of the text, or NULL */
    struct request *end; /* the other end of a range, or NULL */
};

/* Raises an error that was made, and takes it over. */
static PyObject *raised(PyObject *error) {
    if (error != NULL) PyErr_SetObject((PyObject *)Py_TYPE(error), error);
    Py_XDECREF(error);
    return NULL;
}

/* Raises the error of a number of the library. */
static PyObject *refused(struct shared *shared, int32_t number, const struct request *asked) {
    PyObject *given = asked->given == NULL ? Py_None : asked->given;
    return raised(PyObject_CallFunction(shared->objects[REFUSAL], "iOni", (int)number, given, asked->place - 1, asked->what == READ));
}

/* The same for a skeleton, with the byte where the faulty word begins. What is told is the place in what was given, also in characters. */
static PyObject *refused_at(struct shared *shared, int32_t number, struct request *asked, size_t byte) {
    size_t place = 0;
    for (size_t at = 0; at < byte; at++) place += (asked->at[at] & 0xc0) != 0x80 || PyBytes_Check(asked->given);
    asked->place = number < LEGUMEYET_SKELETON_UNKNOWN ? 0 : 1 + (Py_ssize_t)place;
    return refused(shared, number, asked);
}

/* None, where a number of the library says that all is well. */
static PyObject *nothing_or(struct shared *shared, int32_t number) {
    const struct request asked = {.what = LINE};
    return number == LEGUMEYET_OK ? Py_BuildValue("") : refused(shared, number, &asked);
}

/* Whether the interpreter ends. Then no thread but this one gets the GIL again, so what another one holds is never let go. */
static bool is_ending(void) {
    PyObject *call = PySys_GetObject("is_finalizing"), *said = call == NULL ? NULL : PyObject_CallFunctionObjArgs(call, NULL);
    bool is_so = said != Py_False;
    if (said == NULL) PyErr_Clear();
    Py_XDECREF(said);
    return is_so;
}

/* Takes a lock. What waits for it is without the GIL meanwhile. Returns false with an error where the wait would have no end. */
static bool take_lock(PyThread_type_lock lock) {
    if (PyThread_acquire_lock(lock, NOWAIT_LOCK)) return true;
    if (is_ending()) return PyErr_SetString(PyExc_RuntimeError, "another thread was using it when the interpreter ended"), false;
    Py_BEGIN_ALLOW_THREADS
    PyThread_acquire_lock(lock, WAIT_LOCK);
    Py_END_ALLOW_THREADS
    return true;
}

/* Takes the locks of a handle, once those did who waited before. Returns false with an error, and then holds neither. */
static bool take_turn(struct open *it) {
    if (!take_lock(it->next)) return false;
    if (take_lock(it->lock)) return true;
    PyThread_release_lock(it->next);
    return false;
}

/* Whether a handle may be called: it was opened once, and no other thread is inside a call. Waits for one that is, up to its next part. */
static bool is_ready(struct open *it) {
    if (it->shared == NULL || it->shared->objects[REFUSAL] == NULL) {
        PyErr_SetString(PyExc_RuntimeError, it->shared == NULL ? "it was never opened" : "the interpreter ends");
        return false;
    }
    while (it->is_busy) {
        if (it->forks != it->shared->forks) {
            PyErr_SetString(PyExc_RuntimeError, "another thread was using it when the process forked: open another one");
            return false;
        }
        if (!take_turn(it)) return false;
        PyThread_release_lock(it->lock);
        PyThread_release_lock(it->next);
    }
    return true;
}

/* Marks a handle as busy, once those have called it who waited for that. */
static bool begin_part(struct open *it) {
    if (it->lock == NULL || it->forks != it->shared->forks) { /* locks of before a fork may be held by nobody */
        PyThread_type_lock next = PyThread_allocate_lock(), lock = next == NULL ? NULL : PyThread_allocate_lock();
        if (lock == NULL) {
            if (next != NULL) PyThread_free_lock(next);
            return PyErr_NoMemory(), false;
        }
        it->next = next;
        it->lock = lock;
        it->forks = it->shared->forks;
    }
    if (!take_turn(it)) return false;
    it->is_busy = true;
    PyThread_release_lock(it->next);
    return true;
}

/* Marks it as free again. */
static void end_part(struct open *it) {
    it->is_busy = false;
    PyThread_release_lock(it->lock);
}

/* The text of a str, in UTF-8, or of bytes. What is not UTF-8 stays so. */
static bool take_text(struct request *asked, PyObject *text) {
    char *at;
    Py_ssize_t length;
    if (PyBytes_Check(text)) {
        Py_INCREF(text);
        asked->owner = text;
    } else if (PyUnicode_Check(text)) {
        asked->owner = PyUnicode_AsUTF8String(text);
        if (asked->owner == NULL && PyErr_ExceptionMatches(PyExc_UnicodeEncodeError)) {
            PyErr_Clear();
            asked->owner = PyUnicode_AsEncodedString(text, "utf-8", "surrogatepass");
        }
    } else {
        PyErr_Format(PyExc_TypeError, "a text is a str or bytes, and not %R", Py_TYPE(text));
    }
    if (asked->owner == NULL || PyBytes_AsStringAndSize(asked->owner, &at, &length) < 0) return false;
    asked->at = (const uint8_t *)at;
    asked->length = (size_t)length;
    return true;
}

/* Makes memory larger, where it has not so much room. It needs no GIL. */
static bool make_room(uint8_t **memory, size_t *room, size_t needed) {
    uint8_t *larger = needed <= *room ? NULL : realloc(*memory, needed);
    if (larger == NULL) return needed <= *room;
    *memory = larger;
    *room = needed;
    return true;
}

/*
 * The text of a Decimal, an int or a float, as the library takes it: of `1.5E+3` it is `1.5E3`, and of `0E-3` `0.000`, since of a zero the library
 * lets an exponent be. Returns a number of the library, or -1 with an error of Python.
 */
static int32_t take_digits(struct request *asked, PyObject *text) {
    size_t mark = 0, zeros = 0;
    bool is_zero = true;
    const char *at;
    char *out;
    PyObject *made;
    if (!take_text(asked, text)) return -1;
    at = (const char *)asked->at;
    for (; mark < asked->length && (at[mark] | 0x20) != 'e'; mark++) is_zero = is_zero && (at[mark] < '1' || at[mark] > '9');
    if (mark == asked->length) return LEGUMEYET_OK;
    if (is_zero && at[mark + 1] == '-') {
        const long power = PyOS_strtol((char *)at + mark + 1, NULL, 10);
        if (power < LOWEST) return LEGUMEYET_LIMIT;
        zeros = (size_t)-power;
    }
    made = PyBytes_FromStringAndSize(NULL, (Py_ssize_t)(asked->length + zeros + 1));
    if (made == NULL) return -1;
    out = memcpy(PyBytes_AsString(made), at, mark);
    out += mark;
    if (zeros > 0 && memchr(at, '.', mark) == NULL) *out++ = '.';
    memset(out, '0', zeros);
    out += zeros;
    for (size_t from = mark; !is_zero && from < asked->length; from++)
        if (at[from] != '+') *out++ = at[from];
    asked->at = (const uint8_t *)PyBytes_AsString(made);
    asked->length = (size_t)(out - (const char *)asked->at);
    Py_DECREF(asked->owner);
    asked->owner = made;
    return LEGUMEYET_OK;
}

/* The same of what makes the text, which it takes over. */
static int32_t take_made(struct request *asked, PyObject *text) {
    int32_t found = text == NULL ? -1 : take_digits(asked, text);
    Py_XDECREF(text);
    return found;
}

/* Whether an integer has more than 32,768 digits; -1 with an error. Its digits would take time that grows as their square. */
static int is_huge(PyObject *number) {
    PyObject *bits = PyObject_CallMethod((PyObject *)&PyLong_Type, "bit_length", "O", number);
    Py_ssize_t count = bits == NULL ? -1 : PyLong_AsSsize_t(bits);
    Py_XDECREF(bits);
    return PyErr_Occurred() ? -1 : count > BITS;
}

/* An integer that fits in 64 bits, or the digits of another. */
static int32_t take_integer(struct shared *shared, struct request *asked, PyObject *number) {
    const int power = asked->options.words[EXPONENT];
    int overflow = 0, is_refused;
    int32_t found;
    PyObject *exact;
    asked->integer = PyLong_AsLongLongAndOverflow(number, &overflow);
    if (overflow == 0 && asked->what == TEXT) return asked->what = INTEGER, LEGUMEYET_OK;
    if (overflow != 0 && (is_refused = is_huge(number)) != 0) return is_refused < 0 ? -1 : LEGUMEYET_LIMIT;
    exact = PyObject_CallFunctionObjArgs(shared->objects[DECIMAL], number, NULL); /* `str` of an int refuses one of very many digits */
    found = exact == NULL ? -1 : take_made(asked, power == 0 ? PyObject_Str(exact) : PyUnicode_FromFormat("%Se%d", exact, power));
    Py_XDECREF(exact);
    return found;
}

/* A float, of which the library takes the shortest digits that give it back, or these digits where it takes only a text. */
static int32_t take_real(struct request *asked, PyObject *number) {
    char *digits;
    int32_t found;
    asked->real = PyFloat_AsDouble(number);
    if (asked->what == TEXT) return asked->what = REAL, LEGUMEYET_OK;
    digits = PyOS_double_to_string(asked->real, 'r', 0, 0, NULL);
    found = digits == NULL ? -1 : take_made(asked, PyUnicode_FromString(digits));
    PyMem_Free(digits);
    return found;
}

/* The int of what has an index. Returns NULL without an error of what has none, though its type may have one, as an element of NumPy that is masked;
 * nor has a bool, also one of NumPy, to which NumPy 1 gives an index. */
static PyObject *index_of(PyObject *given) {
    PyObject *name, *whole;
    bool is_bool = PyBool_Check(given);
    if (!PyLong_Check(given)) {
        if (!PyIndex_Check(given) || (name = PyObject_GetAttrString((PyObject *)Py_TYPE(given), "__name__")) == NULL) return NULL;
        is_bool = PyUnicode_CompareWithASCIIString(name, "bool_") == 0;
        Py_DECREF(name);
    }
    whole = is_bool ? NULL : PyNumber_Index(given);
    if (whole == NULL && PyErr_Occurred() && PyErr_ExceptionMatches(PyExc_TypeError)) PyErr_Clear();
    return whole;
}

/* A number of a caller: a Decimal, an int, a float or a str, or what has an index. One with an exponent is an integer. */
static int32_t take_number(struct shared *shared, struct request *asked, PyObject *number) {
    const int32_t power = asked->options.words[EXPONENT];
    PyObject *decimal = shared->objects[DECIMAL], *whole;
    int is_decimal;
    int32_t found;
    asked->given = number;
    if (PyLong_Check(number) && !PyBool_Check(number)) return take_integer(shared, asked, number);
    if (power == 0) {
        if (PyUnicode_Check(number)) return take_text(asked, number) ? LEGUMEYET_OK : -1;
        if (PyFloat_Check(number)) return take_real(asked, number);
        is_decimal = (PyObject *)Py_TYPE(number) == decimal ? 1 : PyObject_IsInstance(number, decimal);
        if (is_decimal != 0) return is_decimal < 0 ? -1 : take_made(asked, PyObject_Str(number));
    }
    whole = index_of(number);
    found = whole == NULL ? -1 : take_integer(shared, asked, whole);
    if (whole == NULL && !PyErr_Occurred()) raised(PyObject_CallFunction(shared->objects[WRONG_NUMBER], "Oni", number, asked->place - 1, power != 0));
    Py_XDECREF(whole);
    return found;
}

/* The options by their names, in the order of the words: of an enum of Python, or a whole number from `least` to `most`. */
static const struct {
    const char *name;
    enum object kind; /* DECIMAL of a whole number */
    long least, most;
} known[WORDS + 1] = {
    {"sign", SIGN, 0, 0}, {"rounding", ROUNDING, 0, 0}, {"position", DECIMAL, LOWEST, HIGHEST}, {"increment", DECIMAL, 1, 5000},
    {"trailing_zeros", TRAILING_ZEROS, 0, 0}, {"minimum_integer_digits", DECIMAL, 0, HIGHEST}, {"minimum_fraction_digits", DECIMAL, 0, HIGHEST},
    {"minimum_significant_digits", DECIMAL, 0, SPAN}, {"maximum_significant_digits", DECIMAL, 0, SPAN}, {"rounding_priority", PRIORITY, 0, 0},
    {"exponent", DECIMAL, LOWEST, HIGHEST}};

/* The word of an option that is of an enum. It looks only at the type, and so runs nothing of Python before an error. */
static bool take_choice(PyObject *kind, PyObject *option, int32_t *word) {
    int overflow;
    if (PyObject_TypeCheck(option, (PyTypeObject *)kind)) {
        const long number = PyLong_AsLongAndOverflow(option, &overflow);
        *word = overflow != 0 || number != (int32_t)number ? -1 : (int32_t)number; /* -1 is in no list */
        return true;
    }
    PyObject *name = PyObject_GetAttrString(kind, "__name__");
    if (name != NULL) PyErr_Format(PyExc_TypeError, "an option is a %U, and not %R", name, option);
    Py_XDECREF(name);
    return false;
}

/* Whether a number from 1 to 5000 is an increment: 1, 2, 5 or 25, with zeros behind or not. */
static bool is_increment(long number) {
    while (number % 10 == 0) number /= 10;
    return number == 1 || number == 2 || number == 5 || number == 25;
}

/* The word of an option that is a whole number: an int, or what has an index, as an integer of NumPy. */
static bool take_whole(int at, PyObject *option, int32_t *word) {
    const long least = known[at].least, most = known[at].most;
    PyObject *whole = index_of(option);
    int overflow = 0;
    long number;
    if (whole == NULL) return PyErr_Occurred() ? false : (PyErr_Format(PyExc_TypeError, "%s is an int, and not %R", known[at].name, option), false);
    number = PyLong_AsLongAndOverflow(whole, &overflow);
    Py_DECREF(whole);
    *word = (int32_t)number;
    if (overflow != 0 || number < least || number > most)
        PyErr_Format(PyExc_ValueError, "%s is from %ld to %ld", known[at].name, least, most);
    else if (at != INCREMENT_WORD || is_increment(number))
        return true;
    else
        PyErr_SetString(PyExc_ValueError, "increment is 1, 2, 5 or 25, or one of these with zeros up to 5000");
    return false;
}

/* Whether a rounding is none at a position. */
static bool is_unplaced(int32_t rounding) {
    return rounding == LEGUMEYET_ROUND_USUAL || rounding == LEGUMEYET_ROUND_CASH || rounding == LEGUMEYET_ROUND_NONE;
}

/* Why the rounding, the position and the increment do not go together, or NULL; `told` has a bit for each that a call was given. A position without
 * a rounding is that of HALF_EVEN. */
static const char *position_fault(unsigned told, int32_t *words) {
    const bool has_position = told >> POSITION_WORD & 1;
    if (!is_unplaced(words[ROUNDING_WORD])) return NULL;
    if (has_position && told >> ROUNDING_WORD & 1) return "there is no position of Rounding.KEEP, CASH and NONE";
    if (!has_position && told >> INCREMENT_WORD & 1 && words[INCREMENT_WORD] != 1) return "an increment is of a rounding at a position: give position too";
    if (has_position) words[ROUNDING_WORD] = LEGUMEYET_ROUND_HALF_EVEN;
    return NULL;
}

/* Why significant digits do not go with these, or NULL. Where a call is given one of a position and of digits, it takes the place of the other one,
 * which the formatter was opened with. */
static const char *digits_fault(unsigned told, int32_t *words) {
    const bool has_position = told >> POSITION_WORD & 1, are_told = (told >> LEAST_WORD & 3) != 0, is_alone = words[PRIORITY_WORD] == LEGUMEYET_PRIORITY_AUTO;
    if (has_position && !are_told && is_alone) words[LEAST_WORD] = words[MOST_WORD] = 0;
    if (words[LEAST_WORD] == 0 && words[MOST_WORD] == 0) return is_alone ? NULL : "a rounding_priority is of significant digits: give maximum_significant_digits too";
    if (words[MOST_WORD] != 0 && words[LEAST_WORD] > words[MOST_WORD]) return "minimum_significant_digits is above maximum_significant_digits";
    if (has_position && is_alone) return "position and significant digits both say where to round: give rounding_priority too";
    if (are_told && is_alone && !(told >> ROUNDING_WORD & 1) && is_unplaced(words[ROUNDING_WORD])) words[ROUNDING_WORD] = LEGUMEYET_ROUND_USUAL;
    if (are_told && is_alone && !(told >> INCREMENT_WORD & 1)) words[INCREMENT_WORD] = 1;
    if (words[ROUNDING_WORD] == LEGUMEYET_ROUND_CASH || words[ROUNDING_WORD] == LEGUMEYET_ROUND_NONE) return "Rounding.CASH and NONE are of no significant digits";
    if (words[INCREMENT_WORD] > 1) return "an increment is of no significant digits";
    return !is_alone && words[ROUNDING_WORD] == LEGUMEYET_ROUND_USUAL ? "a rounding_priority is of a position: give position too" : NULL;
}

/* Whether what is said of the rounding goes together. */
static bool is_rounding_whole(unsigned told, int32_t *words) {
    const char *fault = position_fault(told, words);
    if (fault == NULL) fault = digits_fault(told, words);
    if (fault != NULL) PyErr_SetString(PyExc_ValueError, fault);
    return fault == NULL;
}

/* Takes the options that a call is given by their names; a rounding or a position that is None is as it was, and an exponent is taken where there
 * is a place for it. Before 3.9 they are in the caller's own dict, which an option with an index may change: all are taken before one is read. */
static bool take_options(struct shared *shared, PyObject *given, struct options *options, bool has_exponent) {
    PyObject *name, *option, *values[WORDS + 1] = {NULL};
    const int count = has_exponent ? WORDS + 1 : WORDS;
    Py_ssize_t place = 0;
    unsigned told = 0;
    bool is_well = true;
    while (is_well && given != NULL && PyDict_Next(given, &place, &name, &option)) {
        int at = PyUnicode_Check(name) ? 0 : count;
        while (at < count && PyUnicode_CompareWithASCIIString(name, known[at].name) != 0) at++;
        is_well = at < count;
        if (!is_well) PyErr_Format(PyExc_TypeError, "there is no option %R", name);
        if (!is_well || (option == Py_None && (at == ROUNDING_WORD || at == POSITION_WORD))) continue;
        told |= 1u << at;
        Py_INCREF(option);
        Py_XDECREF(values[at]);
        values[at] = option;
    }
    for (int at = 0; at < count; at++) {
        int32_t *word = &options->words[at];
        if (values[at] == NULL) continue;
        if (is_well)
            is_well = known[at].kind == DECIMAL ? take_whole(at, values[at], word) : take_choice(shared->objects[known[at].kind], values[at], word);
        if (at != EXPONENT) options->count = WORDS;
        Py_DECREF(values[at]);
    }
    return is_well && is_rounding_whole(told, options->words);
}

/* A call of a formatter, which may be shared. */
#define BY(it, call, ...) \
    ((it)->is_shared ? legumeyet_shared_formatter_##call(&(it)->handle.shared, __VA_ARGS__) \
                     : legumeyet_formatter_##call(&(it)->handle.formatter, __VA_ARGS__))

/* Asks for a text. What is of no book and no formatter has `it` NULL. */
static int32_t ask(struct open *it, const struct request *asked, size_t *place, uint8_t *out, size_t room, size_t *length) {
    const int16_t power = (int16_t)asked->options.words[EXPONENT];
    switch (asked->what) {
    case TEXT: return BY(it, format, asked->at, asked->length, OPTIONS(asked->options), out, room, length);
    case INTEGER: return BY(it, format_i64, asked->integer, power, OPTIONS(asked->options), out, room, length);
    case REAL: return BY(it, format_double, asked->real, OPTIONS(asked->options), out, room, length);
    case SHOWN: return BY(it, shown, asked->at, asked->length, OPTIONS(asked->options), out, room, length);
    case EXACT: return BY(it, format_exact, asked->at, asked->length, OPTIONS(asked->options), out, room, length);
    case RANGE: return BY(it, format_range, asked->at, asked->length, asked->end->at, asked->end->length, OPTIONS(asked->options), out, room, length);
    case READ: return BY(it, read, asked->at, asked->length, out, room, length);
    case LENIENT: return BY(it, read_lenient, asked->at, asked->length, out, room, length);
    case FACT: return BY(it, tell, (uint32_t)asked->integer, out, room, length);
    case LINE: return legumeyet_book_answer(&it->handle.book, asked->at, asked->length, out, room, length);
    case LOCALE: return legumeyet_book_locale(&it->handle.book, (size_t)asked->integer, out, room, length);
    case FOUND: return legumeyet_book_found_locale(&it->handle.book, asked->at, asked->length, out, room, length);
    case NORMAL: return legumeyet_skeleton_normal(asked->at, asked->length, place, out, room, length);
    case MEANING: return legumeyet_error_text((int32_t)asked->integer, out, room, length);
    default: return legumeyet_tag_of_locale_name((const char *)asked->at, out, room, length);
    }
}

/* The text that a request has, as a str. Returns NULL with a number of the library, or with an error of Python and a number of at most 0. */
static PyObject *text_for(struct open *it, const struct request *asked, size_t *place, int32_t *number) {
    uint8_t small[ROOM], *large = NULL;
    size_t length = 0;
    PyObject *text = NULL;
    *number = ask(it, asked, place, small, sizeof small, &length);
    if (*number == LEGUMEYET_TOO_SMALL) {
        large = PyMem_Malloc(length);
        if (large == NULL) return *number = 0, PyErr_NoMemory();
        *number = ask(it, asked, place, large, length, &length);
    }
    if (*number == LEGUMEYET_OK) text = PyUnicode_DecodeUTF8((const char *)(large == NULL ? small : large), (Py_ssize_t)length, "surrogateescape");
    PyMem_Free(large);
    return text;
}

/* The same of a book or a formatter; what is refused is raised. */
static PyObject *written(struct open *it, const struct request *asked) {
    int32_t number;
    PyObject *text;
    if (!is_ready(it)) return NULL;
    text = text_for(it, asked, NULL, &number);
    return number > 0 ? refused(it->shared, number, asked) : text;
}

/* Takes the number and the options of a call of a formatter, or both ends of a range. Returns a number of the library, or -1 with an error of Python. */
static int32_t take_call(struct open *it, PyObject *arguments, PyObject *given, struct request *asked) {
    PyObject *number, *end = NULL;
    const int count = asked->end == NULL ? 1 : 2;
    int32_t found;
    if (!PyArg_UnpackTuple(arguments, "the call", count, count, &number, &end) || !is_ready(it)) return -1;
    if (asked->what == EXACT && !PyUnicode_Check(number))
        return PyErr_Format(PyExc_TypeError, "an exact form is a str, and not %R", Py_TYPE(number)), -1;
    asked->options = it->options;
    if (given != NULL && !take_options(it->shared, given, &asked->options, asked->what == TEXT)) return -1;
    found = take_number(it->shared, asked, number);
    if (found == LEGUMEYET_OK && count == 2) {
        found = take_number(it->shared, asked->end, end);
        asked->given = arguments;
    }
    return found;
}

/* What a call of a formatter writes. */
static PyObject *called(PyObject *self, PyObject *arguments, PyObject *given, struct request *asked) {
    struct open *it = (struct open *)self;
    int32_t number = take_call(it, arguments, given, asked);
    PyObject *text = number == LEGUMEYET_OK ? written(it, asked) : number < 0 ? NULL : refused(it->shared, number, asked);
    Py_XDECREF(asked->owner);
    return text;
}

#define CALLED(name, kind) \
    static PyObject *name(PyObject *it, PyObject *arguments, PyObject *given) { \
        struct request asked = {.what = kind}; \
        return called(it, arguments, given, &asked); \
    }
CALLED(format, TEXT)
CALLED(shown, SHOWN)
CALLED(format_exact, EXACT)

static PyObject *select_range(PyObject *it, PyObject *arguments, PyObject *given) {
    struct request end = {.what = RANGE}, asked = {.what = RANGE, .end = &end};
    PyObject *text = called(it, arguments, given, &asked);
    Py_XDECREF(end.owner);
    return text;
}

/* A fact of a formatter or of rules, by its number. */
static PyObject *tell(PyObject *it, PyObject *fact) {
    const struct request asked = {.what = FACT, .integer = PyLong_AsLong(fact)};
    return PyErr_Occurred() ? NULL : written((struct open *)it, &asked);
}

static PyObject *read_back(PyObject *self, PyObject *arguments, PyObject *given) {
    struct open *it = (struct open *)self;
    struct request asked = {.what = READ};
    PyObject *digits = NULL, *number = NULL, *lenient = Py_False;
    int is_lenient;
    static char *names[] = {"", "lenient", NULL};
    if (!PyArg_ParseTupleAndKeywords(arguments, given, "O|$O:read", names, &asked.given, &lenient)) return NULL;
    is_lenient = PyObject_IsTrue(lenient);
    if (is_lenient < 0 || !is_ready(it)) return NULL;
    if (is_lenient) asked.what = LENIENT;
    if (take_text(&asked, asked.given)) digits = written(it, &asked);
    if (digits != NULL) number = PyObject_CallFunctionObjArgs(it->shared->objects[DECIMAL], digits, NULL);
    Py_XDECREF(digits);
    Py_XDECREF(asked.owner);
    return number;
}

/* A pair of a text and its parts, by characters. */
static PyObject *pair_of(struct shared *shared, const uint8_t *text, size_t length, const legumeyet_interval *parts, size_t count) {
    size_t before = 0, *places = PyMem_Malloc((length + 1) * sizeof *places); /* how many characters are before each byte */
    PyObject *list = places == NULL ? PyErr_NoMemory() : PyList_New((Py_ssize_t)count);
    for (size_t at = 0; list != NULL && at <= length; at++) {
        places[at] = before;
        before += at + 1 >= length || (text[at + 1] & 0xc0) != 0x80;
    }
    for (size_t at = 0; list != NULL && at < count; at++) {
        const Py_ssize_t start = (Py_ssize_t)places[parts[at].start], end = (Py_ssize_t)places[parts[at].end];
        PyObject *part = PyObject_CallFunction(shared->objects[PART_OF], "Inn", (unsigned)parts[at].kind, start, end);
        if (part == NULL || PyList_SetItem(list, (Py_ssize_t)at, part) < 0) Py_CLEAR(list);
    }
    PyMem_Free(places);
    return list == NULL ? NULL : Py_BuildValue("s#N", (const char *)text, (Py_ssize_t)length, list);
}

static PyObject *format_parts(PyObject *self, PyObject *arguments, PyObject *given) {
    struct open *it = (struct open *)self;
    struct request asked = {.what = SHOWN}; /* the number is taken as text */
    const size_t each = sizeof(legumeyet_interval);
    size_t room = 0, places = 0, length = ROOM, count = PLACES;
    uint8_t *out = NULL, *parts = NULL;
    PyObject *pair = NULL;
    int32_t number = take_call(it, arguments, given, &asked);
    if (number == LEGUMEYET_OK) number = is_ready(it) ? LEGUMEYET_TOO_SMALL : -1;
    while (number == LEGUMEYET_TOO_SMALL)
        number = make_room(&out, &room, length) && make_room(&parts, &places, count * each)
            ? BY(it, format_parts, asked.at, asked.length, OPTIONS(asked.options), out, room, &length, (legumeyet_interval *)parts,
                 places / each, &count)
            : LEGUMEYET_MEMORY;
    if (number == LEGUMEYET_OK) pair = pair_of(it->shared, out, length, (legumeyet_interval *)parts, count);
    if (number > 0) refused(it->shared, number, &asked);
    free(out);
    free(parts);
    Py_XDECREF(asked.owner);
    return pair;
}

/* Numbers of one kind, which one call writes, and their texts, one after the other. */
struct column {
    struct open *by;
    struct request asked; /* the options, and the kind of the numbers */
    PyObject *list;       /* of the texts that were written */
    Py_ssize_t done;      /* how many are in it */
    size_t since;         /* how many of them since other threads could run */
    size_t count;         /* of the numbers after them */
    uint8_t *digits;      /* each with a line feed */
    size_t length, digits_room;
    uint8_t *out;
    size_t room, written;
    size_t ends[CHUNK];
    union {
        int64_t integers[CHUNK];
        double reals[CHUNK];
    } as;
};

/* Writes numbers, from the first on where they need more room. It needs no GIL. Returns the number of the library, of the number after those that
 * were written. */
static int32_t write_texts(struct open *it, struct column *all) {
    const struct options *own = &all->asked.options;
    const int16_t power = (int16_t)own->words[EXPONENT];
    int32_t number = LEGUMEYET_TOO_SMALL;
    all->written = 0; /* where there is no room at all, the first number is the one that is refused */
    for (size_t room = EACH * all->count + LEAST; number == LEGUMEYET_TOO_SMALL; room = 2 * all->room) {
        if (!make_room(&all->out, &all->room, room)) return LEGUMEYET_MEMORY;
        if (all->asked.what == REAL)
            number = BY(it, format_doubles, all->as.reals, all->count, OPTIONS(*own), all->out, all->room, all->ends, CHUNK, &all->written);
        else if (all->asked.what == INTEGER)
            number = BY(it, format_integers, all->as.integers, all->count, power, OPTIONS(*own), all->out, all->room, all->ends, CHUNK,
                        &all->written);
        else
            number = BY(it, format_texts, all->digits, all->length, OPTIONS(*own), all->out, all->room, all->ends, CHUNK, &all->written);
    }
    return number;
}

/* Writes numbers without the GIL. No other call has the formatter meanwhile, unless it is shared. Returns -1 with an error of Python. */
static int32_t write_aside(struct open *it, struct column *all) {
    struct open copied = *it; /* of a shared handle: another thread may close the formatter meanwhile */
    const bool is_alone = !it->is_shared;
    int32_t number;
    if (is_alone && !begin_part(it)) return -1;
    Py_BEGIN_ALLOW_THREADS
    number = write_texts(is_alone ? it : &copied, all);
    Py_END_ALLOW_THREADS
    if (is_alone) end_part(it);
    return number;
}

/* Adds a text to a list, which takes it over. */
static bool add(PyObject *list, PyObject *text) {
    bool is_well = text != NULL && PyList_Append(list, text) == 0;
    Py_XDECREF(text);
    return is_well;
}

/* Writes the numbers that were taken, and adds their texts to the list. It asks the formatter also where there is no number at all: a closed one
 * refuses that. Other threads and the handlers of signals run once as many numbers were written as a part has. */
static bool write_taken(struct column *all) {
    const size_t count = all->count, *ends = all->ends;
    const bool is_aside = count >= ASIDE;
    bool is_well = true;
    size_t start = 0;
    int32_t number;
    if (count == 0 && all->done > 0) return true;
    if (!is_ready(all->by)) return false;
    number = (is_aside ? write_aside : write_texts)(all->by, all);
    for (size_t at = 0; is_well && number == LEGUMEYET_OK && at < count; start = ends[at++])
        is_well = add(all->list, PyUnicode_DecodeUTF8((const char *)all->out + start, (Py_ssize_t)(ends[at] - start), NULL));
    all->asked.place = 1 + all->done + (Py_ssize_t)all->written;
    if (number > 0) refused(all->by->shared, number, &all->asked);
    all->count = all->length = 0;
    all->done += (Py_ssize_t)count;
    all->since += count;
    if (!is_well || number != LEGUMEYET_OK || all->since < CHUNK) return is_well && number == LEGUMEYET_OK;
    all->since = 0;
    if (!is_aside) {
        Py_BEGIN_ALLOW_THREADS
        Py_END_ALLOW_THREADS
    }
    return PyErr_CheckSignals() == 0;
}

/* Ends where a number is none that can be written: by the error of Python that is there, or by a number of the library above 0. A number before
 * it that is refused comes first. */
static bool end_wrong(struct column *all, int32_t number) {
    PyObject *kind, *error, *trace;
    PyErr_Fetch(&kind, &error, &trace);
    if (!write_taken(all)) {
        Py_XDECREF(kind);
        Py_XDECREF(error);
        Py_XDECREF(trace);
        return false;
    }
    all->asked.place = 1 + all->done;
    if (number > 0) return refused(all->by->shared, number, &all->asked), false;
    PyErr_Restore(kind, error, trace);
    return false;
}

/* Takes digits, with a line feed behind them. */
static bool put_digits(struct column *all, const uint8_t *digits, size_t length) {
    const size_t room = all->length + length < all->digits_room ? all->digits_room : 2 * all->digits_room + length + 1;
    if (!make_room(&all->digits, &all->digits_room, room)) return PyErr_NoMemory(), false;
    if (length > 0) memcpy(all->digits + all->length, digits, length);
    all->digits[all->length + length] = '\n';
    all->length += length + 1;
    return true;
}

/* Takes a number. Those of another kind are written before. Digits with a line feed inside would be two numbers, and are none. */
static bool put(struct column *all, const struct request *number) {
    const bool is_other = all->count > 0 && all->asked.what != number->what;
    if ((is_other || all->count == CHUNK || all->length >= DIGITS_AT_MOST) && !write_taken(all)) return false;
    if (number->what == TEXT && number->length > 0 && memchr(number->at, '\n', number->length) != NULL) return end_wrong(all, LEGUMEYET_NUMBER);
    if (number->what == TEXT && !put_digits(all, number->at, number->length)) return false;
    if (number->what == INTEGER) all->as.integers[all->count] = number->integer;
    if (number->what == REAL) all->as.reals[all->count] = number->real;
    all->asked.what = number->what;
    all->count++;
    return true;
}

/* Takes a number of a caller. */
static bool put_number(struct column *all, PyObject *number) {
    struct request asked = {.what = TEXT, .options = all->asked.options, .place = 1 + all->done + (Py_ssize_t)all->count};
    int32_t found = take_number(all->by->shared, &asked, number);
    bool is_well = found == LEGUMEYET_OK ? put(all, &asked) : end_wrong(all, found);
    Py_XDECREF(asked.owner);
    return is_well;
}

/* Takes the numbers that an object iterates over. */
static bool put_each(struct column *all, PyObject *numbers) {
    PyObject *iterator = PyObject_GetIter(numbers), *number = NULL;
    bool is_well = iterator != NULL;
    while (is_well && (number = PyIter_Next(iterator)) != NULL) {
        is_well = put_number(all, number);
        Py_DECREF(number);
    }
    Py_XDECREF(iterator);
    return is_well && PyErr_Occurred() ? end_wrong(all, -1) : is_well;
}

/* Takes the numbers of a row, of `width` bytes each, as the machine has them: doubles, `d`, or integers. What has not its bits as an int64_t is
 * taken as digits. */
static bool put_row(struct column *all, int kind, int width, const char *row, const char *end) {
    const bool is_signed = strchr("bhilqn", kind) != NULL;
    char digits[32];
    struct request number = {.what = kind == 'd' ? REAL : INTEGER, .at = (const uint8_t *)digits};
    bool is_well = true;
    for (; is_well && row < end; row += width) {
        uint64_t bits = 0;
        memcpy(&bits, row, (size_t)width);
        if (kind == 'd') memcpy(&number.real, &bits, sizeof bits);
        number.integer = is_signed ? (int64_t)(bits << (64 - 8 * width)) >> (64 - 8 * width) : (int64_t)bits;
        if (kind != 'd') number.what = is_signed || bits <= INT64_MAX ? INTEGER : TEXT;
        if (number.what == TEXT)
            number.length = (size_t)snprintf(digits, sizeof digits, "%llue%d", (unsigned long long)bits, (int)all->asked.options.words[EXPONENT]);
        is_well = put(all, &number);
    }
    return is_well;
}

/* Takes all numbers of an object: of a row in memory, or one by one. */
static bool put_all(struct column *all, PyObject *numbers) {
    const int has_exponent = all->asked.options.words[EXPONENT] != 0;
    const char *at = NULL;
    Py_ssize_t length;
    int kind, width;
    PyObject *row;
    bool is_well;
    if (PyList_Check(numbers) || PyTuple_Check(numbers)) return put_each(all, numbers);
    row = PyObject_CallFunction(all->by->shared->objects[ROW_OF], "Oi", numbers, has_exponent);
    is_well = row != NULL && (row == Py_None || PyArg_ParseTuple(row, "Ciy#", &kind, &width, &at, &length));
    is_well = is_well && (at == NULL ? put_each(all, numbers) : put_row(all, kind, width, at, at + length));
    Py_XDECREF(row);
    return is_well;
}

static PyObject *format_all(PyObject *self, PyObject *arguments, PyObject *given) {
    struct open *it = (struct open *)self;
    struct column *all;
    PyObject *list = NULL, *numbers;
    if (!PyArg_UnpackTuple(arguments, "format_all", 1, 1, &numbers) || !is_ready(it)) return NULL;
    if (PyUnicode_Check(numbers) || PyBytes_Check(numbers) || PyByteArray_Check(numbers))
        return PyErr_Format(PyExc_TypeError, "numbers are given one by one, and not as a %R", Py_TYPE(numbers));
    all = malloc(sizeof *all);
    if (all == NULL) return PyErr_NoMemory();
    memset(all, 0, offsetof(struct column, ends));
    all->by = it;
    all->asked.what = INTEGER;
    all->asked.options = it->options;
    if (take_options(it->shared, given, &all->asked.options, true)) list = all->list = PyList_New(0);
    if (list != NULL && !(put_all(all, numbers) && write_taken(all))) Py_CLEAR(list);
    free(all->digits);
    free(all->out);
    free(all);
    return list;
}

/* What is written for a text that a caller gives. */
static PyObject *written_of(PyObject *self, struct request asked, PyObject *given) {
    PyObject *text = take_text(&asked, given) ? written((struct open *)self, &asked) : NULL;
    Py_XDECREF(asked.owner);
    return text;
}

static PyObject *answer(PyObject *self, PyObject *line) { return written_of(self, (struct request){.what = LINE}, line); }

static PyObject *found_locale(PyObject *self, PyObject *tag) { return written_of(self, (struct request){.what = FOUND}, tag); }

/* Lines that are to be answered, and the answers that were written. */
struct lines {
    const uint8_t *at;
    size_t length;
    uint8_t *out;
    size_t room, written;
};

/* Answers the lines up to the first end of one that PIECE bytes are reached by. It needs no GIL. Returns the number of the library. */
static int32_t answer_piece(struct open *it, struct lines *all) {
    const size_t least = all->length < PIECE ? all->length : PIECE;
    const uint8_t *end = least == 0 ? all->at : (const uint8_t *)memchr(all->at + least - 1, '\n', all->length - least + 1) + 1;
    int32_t number = LEGUMEYET_TOO_SMALL;
    for (size_t needs = LEAST; number == LEGUMEYET_TOO_SMALL;) {
        size_t read = 0, written = 0;
        if (all->room - all->written < needs && !make_room(&all->out, &all->room, 2 * all->room + needs)) return LEGUMEYET_MEMORY;
        number = legumeyet_answers_answer(&it->handle.answers, all->at, (size_t)(end - all->at), all->out + all->written, all->room - all->written,
                                          &read, &written, &needs);
        all->at += read;
        all->length -= read;
        all->written += written;
    }
    return number;
}

/* The same, without the GIL where there is much to do. Returns -1 with an error of Python. */
static int32_t answer_aside(struct open *it, struct lines *all) {
    int32_t number;
    if (!is_ready(it)) return -1;
    if (all->length < PIECE_ASIDE) return answer_piece(it, all);
    if (!begin_part(it)) return -1;
    Py_BEGIN_ALLOW_THREADS
    number = answer_piece(it, all);
    Py_END_ALLOW_THREADS
    end_part(it);
    return PyErr_CheckSignals() == 0 ? number : -1;
}

/* Takes lines, the last one with a line feed behind it. */
static bool take_lines(struct request *asked, PyObject *lines) {
    if (!take_text(asked, lines)) return false;
    if (asked->length == 0 || asked->at[asked->length - 1] == '\n') return true;
    PyBytes_ConcatAndDel(&asked->owner, PyBytes_FromString("\n"));
    if (asked->owner == NULL) return false;
    asked->at = (const uint8_t *)PyBytes_AsString(asked->owner);
    asked->length++;
    return true;
}

/* The answers to lines, as bytes or as a str. It asks also where there is no line at all: what is closed refuses that. */
static PyObject *answer_lines(PyObject *self, PyObject *lines) {
    struct open *it = (struct open *)self;
    struct request asked = {.what = LINE};
    struct lines all = {NULL, 0, NULL, 0, 0};
    PyObject *answers = NULL;
    int32_t number = -1;
    if (is_ready(it) && take_lines(&asked, lines)) {
        all.at = asked.at;
        all.length = asked.length;
        do number = answer_aside(it, &all);
        while (number == LEGUMEYET_OK && all.length > 0);
    }
    if (number > 0) refused(it->shared, number, &asked);
    if (number == LEGUMEYET_OK)
        answers = PyBytes_Check(lines) ? PyBytes_FromStringAndSize((const char *)all.out, (Py_ssize_t)all.written)
                                       : PyUnicode_DecodeUTF8((const char *)all.out, (Py_ssize_t)all.written, NULL);
    free(all.out);
    Py_XDECREF(asked.owner);
    return answers;
}

static PyObject *keep(PyObject *self, PyObject *none) {
    struct open *it = (struct open *)self;
    (void)none;
    return is_ready(it) ? nothing_or(it->shared, legumeyet_book_keep(&it->handle.book)) : NULL;
}

/* No tag runs anything of Python, so the book stays open meanwhile. */
static PyObject *book_locales(PyObject *self, PyObject *none) {
    struct open *it = (struct open *)self;
    struct request asked = {.what = LOCALE};
    size_t count = 0;
    int32_t number;
    PyObject *list;
    (void)none;
    if (!is_ready(it)) return NULL;
    number = legumeyet_book_locale_count(&it->handle.book, &count);
    if (number != LEGUMEYET_OK) return refused(it->shared, number, &asked);
    for (list = PyList_New(0); list != NULL && asked.integer < (int64_t)count; asked.integer++)
        if (!add(list, written(it, &asked))) Py_CLEAR(list);
    return list;
}

/* Closes a handle, also one that is closed. What a shared one shows stays. */
static void close_handle(struct open *it) {
    if (it->is_shared)
        legumeyet_shared_formatter_close(&it->handle.shared);
    else if (it->kind == FORMATTER || it->kind == RULES)
        legumeyet_formatter_close(&it->handle.formatter);
    else if (it->kind == ANSWERS)
        legumeyet_answers_close(&it->handle.answers);
    else
        legumeyet_book_close(&it->handle.book);
}

static PyObject *close_it(PyObject *self, PyObject *none) {
    struct open *it = (struct open *)self;
    (void)none;
    if (it->shared != NULL && !is_ready(it)) return NULL;
    close_handle(it);
    return Py_BuildValue("");
}

/* Shares a formatter for the rest of the process, unless it is shared. */
static PyObject *share(PyObject *self, PyObject *none) {
    struct open *it = (struct open *)self;
    legumeyet_shared_formatter shared = {0};
    int32_t number = LEGUMEYET_OK;
    (void)none;
    if (!is_ready(it)) return NULL;
    if (!it->is_shared) number = legumeyet_formatter_share(&it->handle.formatter, &shared);
    if (shared.is_open) it->handle.shared = shared;
    it->is_shared = it->is_shared || shared.is_open;
    return nothing_or(it->shared, number);
}

/* Lets go of what objects share. */
static void leave(struct shared *shared) {
    if (shared != NULL && --shared->count == 0) free(shared);
}

static void dealloc(PyObject *self) {
    struct open *it = (struct open *)self;
    PyTypeObject *type = Py_TYPE(self);
    freefunc free_it = (freefunc)PyType_GetSlot(type, Py_tp_free);
    close_handle(it);
    leave(it->shared);
    if (it->next != NULL) PyThread_free_lock(it->next);
    if (it->lock != NULL) PyThread_free_lock(it->lock);
    free_it(self);
    Py_DECREF(type);
}

#define CALL(name) (PyCFunction)(void (*)(void))name, METH_VARARGS | METH_KEYWORDS
#define CLOSE {"close", close_it, METH_NOARGS, "close($self, /)\n--\n\nCloses it. What is closed already stays so."}

static PyMethodDef book_methods[] = {
    CLOSE,
    {"keep", keep, METH_NOARGS,
     "keep($self, /)\n--\n\n"
     "Keeps the book for the rest of the program: its memory is never given back, not even where the book is closed.\n\n"
     "Formatters that are opened from it afterwards borrow its tables, and have no copy of their own: they are opened sooner and hold\n"
     "less memory. Raises Error 2 where the book is closed, 1 where memory was refused.\n\n"
     ">>> kept = Book.world()\n"
     ">>> kept.keep()\n"
     ">>> DecimalFormatter(kept, 'de').format(1234)\n"
     "'1.234'"},
    {"answer", answer, METH_O,
     "answer($self, line, /)\n--\n\n"
     "The answer to a request line, without its line feed: 'ok', a tab and a text, or 'err', a tab and a word.\n\n"
     "Raises Error 2 where the book is closed, 1 where memory was refused.\n\n"
     ">>> Book.world().answer('de\\tplain\\tauto\\tkeep\\t-\\t-987654.321')\n"
     "'ok\\t-987.654,321'"},
    {"found_locale", found_locale, METH_O,
     "found_locale($self, tag, /)\n--\n\n"
     "The tag of the locale whose symbols the book has for a tag: the first of the tag, its parent and so on; `und` of English too.\n\n"
     "Raises Error 5 of what is no tag, 6 where the book has no tables for it, 2 where the book is closed, 1 where memory was refused.\n\n"
     ">>> world = Book.world()\n"
     ">>> world.found_locale('de-XX'), world.found_locale('de-AT'), world.found_locale('en-u-nu-thai')\n"
     "('de', 'de-AT', 'und')"},
    {"locales", book_locales, METH_NOARGS,
     "locales($self, /)\n--\n\n"
     "The tags of the locales that the book has symbols of, in its order. Others have the tables of their parents: of the world's book\n"
     "world_locales lists all.\n\n"
     "Raises Error 2 where the book is closed, 1 where memory was refused.\n\n"
     ">>> Book('[[[\"en\",\"\",\"latn\",\"-\",\"\",\"+\",\"\",\".\",\",\",3,3,1]],[],[],[],[]]').locales()\n"
     "['en']"},
    {NULL, NULL, 0, NULL}};

#define TELL {"_tell", tell, METH_O, NULL}

static PyMethodDef rules_methods[] = {
    CLOSE,
    TELL,
    {"select", CALL(format),
     "select($self, number, /, *, exponent=0, **options)\n--\n\n"
     "The plural category of a number as it is shown: 'zero', 'one', 'two', 'few', 'many' or 'other'. Numbers and options are those of\n"
     "DecimalFormatter.format. Raises as it does.\n\n"
     ">>> english = PluralRules('en')\n"
     ">>> english.select(1), english.select('1.0'), english.select(1, minimum_fraction_digits=2)\n"
     "('one', 'other', 'other')"},
    {"select_range", CALL(select_range),
     "select_range($self, start, end, /, **options)\n--\n\n"
     "The plural category of the range from one number to another, by those of both. Raises as select.\n\n"
     ">>> PluralRules('fr').select_range(0, 1), PluralRules('en').select_range(0, 1)\n"
     "('one', 'other')"},
    {NULL, NULL, 0, NULL}};

static PyMethodDef formatter_methods[] = {
    CLOSE,
    TELL,
    {"share", share, METH_NOARGS,
     "share($self, /)\n--\n\n"
     "Shares the formatter: no call waits for one of format_all that is under way in another thread. It stays for the rest of the process, so\n"
     "share those that a program uses until it ends. What is shared already stays so. Raises Error 2 where the formatter is closed.\n\n"
     ">>> DecimalFormatter('de').share()"},
    {"format", CALL(format),
     "format($self, number, /, *, exponent=0, **options)\n--\n\n"
     "The text of a number: a Decimal, an int, a float, or a str as '-1234.5'. A float is written by the shortest digits that give it back.\n"
     "An int is times ten to the power exponent: -12345 and -2 are -123.45. A percent is written as it is given, so a ratio is multiplied by\n"
     "100 first. An amount has the digits of its currency, half to even, and those that it has in cash with Rounding.CASH.\n\n"
     "The options are sign, rounding, position, increment, trailing_zeros, minimum_integer_digits, minimum_fraction_digits,\n"
     "minimum_significant_digits, maximum_significant_digits and rounding_priority; those that are not given are the ones that the formatter\n"
     "was opened with. With a rounding the number is rounded at the position first, to a multiple of the increment, which is 1, 2, 5 or 25, or\n"
     "one of these with zeros up to 5000: 0, as without a position, is the ones, -2 the hundredths, and the digits down to it are shown, so\n"
     "1.26 at -2 by 50 is 1.50. A position without a rounding is that of HALF_EVEN, and so are significant digits,\n"
     "which are counted from the first one that is not zero on. Options that do not go together, as an increment without a position, are a\n"
     "ValueError. Options that are given take the place of all that a skeleton says.\n\n"
     "Raises Error 7 where the text is no number, or a float is not finite, 8 where a digit is beyond the magnitudes -32768 to 32767, 9 where\n"
     "what is shown in compact form or in scientific notation does, 2 where the formatter is closed, 1 where memory was refused.\n\n"
     ">>> german, yen = DecimalFormatter('de'), CurrencyFormatter('en', 'JPY')\n"
     ">>> german.format(Decimal('1234.50')), german.format(1234), german.format(0.1), german.format(-12345, exponent=-2)\n"
     "('1.234,50', '1.234', '0,1', '-123,45')\n"
     ">>> german.format('9.65', position=-1), german.format('9.65', sign=Sign.ALWAYS, rounding=Rounding.CEIL, position=-1)\n"
     "('9,6', '+9,7')\n"
     ">>> german.format(1.995, position=-2, trailing_zeros=TrailingZeros.TRIM), german.format(7, minimum_integer_digits=3)\n"
     "('2', '007')\n"
     ">>> german.format(12345, maximum_significant_digits=3), german.format(5, minimum_significant_digits=3)\n"
     "('12.300', '5,00')\n"
     ">>> yen.format(2.5), yen.format(2.5, rounding=Rounding.NONE), yen.format(1234.5, position=2)\n"
     "('\u00a52', '\u00a52.5', '\u00a51,200')"},
    {"format_all", CALL(format_all),
     "format_all($self, numbers, /, *, exponent=0, **options)\n--\n\n"
     "A list of the texts of many numbers, as format writes each. The numbers are what can be iterated over, or a row in memory: an array of\n"
     "array or NumPy, a column of pandas; of its integers or doubles none becomes an object. Other threads run meanwhile.\n\n"
     "Raises as format; an Error, or the TypeError of what is no number or is missing, says which number it is of, from 0 on.\n\n"
     ">>> DecimalFormatter('de').format_all([1234, Decimal('0.50'), '1e6'])\n"
     "['1.234', '0,50', '1.000.000']\n"
     ">>> DecimalFormatter('de').format_all([123456, -5], exponent=-2)\n"
     "['1.234,56', '-0,05']"},
    {"format_parts", CALL(format_parts),
     "format_parts($self, number, /, **options)\n--\n\n"
     "The text of format, and its parts in order of their beginning; of a compact number they are those of its sign. Raises as format.\n\n"
     ">>> text, parts = CurrencyFormatter('en', 'USD').format_parts(-1234.5)\n"
     ">>> [(it.kind.name, text[it.start : it.end]) for it in parts][:3]\n"
     "[('MINUS_SIGN', '-'), ('CURRENCY', '$'), ('INTEGER', '1,234')]"},
    {"read", CALL(read_back),
     "read($self, text, /, *, lenient=False)\n--\n\n"
     "The number that is written so, with all digits that are shown; how many digits a currency has, or a scientific number is shown with, is not\n"
     "looked at. With lenient also the number of a text that somebody typed: without separators, with blanks around it, in ASCII digits, with the\n"
     "unit or its code before or after the number, or without it. A separator is never dropped: digits are grouped wholly, or not at all. Another\n"
     "unit is none.\n\n"
     "Raises Error 10 where the text is not UTF-8, 11 where two numbers may have one text, as in compact form, and with lenient of scientific\n"
     "numbers, 12 where no number is written so, 2 where the formatter is closed, 1 where memory was refused.\n\n"
     ">>> german, dollars = DecimalFormatter('de'), CurrencyFormatter('en', 'USD', accounting=True)\n"
     ">>> german.read('-1.234,50'), dollars.read('($1,234.50)')\n"
     "(Decimal('-1234.50'), Decimal('-1234.50'))\n"
     ">>> german.read('98.7654')\n"
     "Traceback (most recent call last):\n"
     "legumeyet.InputError: 12: no number is written so: '98.7654'; with lenient=True what people type is read\n"
     ">>> german.read(' 1234,5 ', lenient=True), dollars.read('-USD 5', lenient=True)\n"
     "(Decimal('1234.5'), Decimal('-5'))"},
    {"shown", CALL(shown),
     "shown($self, number, /, **options)\n--\n\n"
     "The value that the text of format shows: a significand and, in compact form, its exponent after 'c', or of a scientific number after 'e', as\n"
     "Decimal takes it. Raises as format.\n\n"
     ">>> CompactDecimalFormatter('en').shown(-1172700), CurrencyFormatter('en', 'USD').shown(5), ScientificFormatter('en').shown(1200)\n"
     "('-1.2c6', '5.00', '1.2e3')"},
    {"format_exact", CALL(format_exact),
     "format_exact($self, number, /, **options)\n--\n\n"
     "The text of a significand with an exponent, its digits as they are; it is the significand that is rounded.\n\n"
     "Raises Error 7 where the text is no such number, 8 where a digit of the significand is beyond the magnitudes -32768 to 32767, or the\n"
     "exponent is above 255, 9 where the magnitude of both together is above 32767, 13 where numbers of this magnitude have another exponent, as\n"
     "scientific ones always have, 2 where the formatter is closed, 1 where memory was refused.\n\n"
     ">>> CompactDecimalFormatter('en').format_exact('-1.20c6')\n"
     "'-1.20M'\n"
     ">>> CompactDecimalFormatter('en').format_exact('1.2c5')\n"
     "Traceback (most recent call last):\n"
     "legumeyet.InputError: 13: numbers of this magnitude have another exponent: '1.2c5'"},
    {NULL, NULL, 0, NULL}};

static PyMethodDef answers_methods[] = {
    CLOSE,
    {"answer", answer_lines, METH_O,
     "answer($self, lines, /)\n--\n\n"
     "The answers to request lines, in order, as Book.answer has them, each with a line feed: bytes of bytes, and a str of a str. A last line\n"
     "without one is answered too. Other threads run meanwhile.\n\n"
     "Raises Error 2 where it is closed, 1 where memory was refused.\n\n"
     ">>> Answers().answer('de\\tplain\\tauto\\tkeep\\t-\\t1234.5\\nfr\\tplain\\tauto\\tkeep\\t-\\t0.5\\n')\n"
     "'ok\\t1.234,5\\nok\\t0,5\\n'"},
    {NULL, NULL, 0, NULL}};

static PyMemberDef members[] = {
    {"is_open", T_BOOL, offsetof(struct open, handle.book.is_open), READONLY, "Whether it is open."}, {NULL, 0, 0, 0, NULL}};

#define TYPE(name, methods) \
    {"legumeyet._core." name, sizeof(struct open), 0, Py_TPFLAGS_DEFAULT | Py_TPFLAGS_BASETYPE, \
     (PyType_Slot[]){{Py_tp_dealloc, dealloc}, {Py_tp_methods, methods}, {Py_tp_members, members}, {0, NULL}}}
static PyType_Spec specs[] = {
    TYPE("Book", book_methods), TYPE("NumberFormatter", formatter_methods), TYPE("PluralRules", rules_methods), TYPE("Answers", answers_methods)};

/* NULL of a module that is not filled yet: before 3.9 such a module is already visited by the garbage collector, and freed as others are. */
static struct shared *shared_of(PyObject *module) {
    struct shared **state = PyModule_GetState(module);
    return state == NULL ? NULL : *state;
}

/* Whether an object of a type of this module may be opened. One that never was has a part of what objects share from now on. */
static bool may_be_opened(struct shared *shared, struct open *it, enum object kind) {
    if (it->shared == NULL) {
        it->shared = shared;
        it->kind = kind;
        shared->count++;
    }
    return is_ready(it);
}

/* open_book(book, json): a book that is closed yet is opened of a JSON, without the GIL, and of None the world's is opened. */
static PyObject *open_book(PyObject *module, PyObject *arguments) {
    struct shared *shared = shared_of(module);
    struct open *it;
    PyObject *json;
    struct request asked = {.what = LINE};
    legumeyet_book made = {0};
    int32_t number;
    if (!PyArg_ParseTuple(arguments, "O!O", shared->objects[BOOK], &it, &json) || !may_be_opened(shared, it, BOOK)) return NULL;
    if (json != Py_None && !take_text(&asked, json)) return NULL;
    Py_BEGIN_ALLOW_THREADS
    number = json == Py_None ? legumeyet_book_open_world(&made) : legumeyet_book_open(asked.at, asked.length, &made);
    Py_END_ALLOW_THREADS
    Py_XDECREF(asked.owner);
    if (number != LEGUMEYET_OK) return refused(shared, number, &asked);
    legumeyet_book_close(&it->handle.book);
    it->handle.book = made;
    return Py_BuildValue("");
}

/* open_formatter(formatter or rules, book or None, tag, words of a format or None, code of a currency or None or else a skeleton, options): of None
   by the world's book, of which only what the tag asks for is read. */
static PyObject *open_formatter(PyObject *module, PyObject *arguments) {
    struct shared *shared = shared_of(module);
    struct request tag = {.what = LINE}, text = {.what = LINE};
    struct open *it, *book;
    PyObject *words, *given, *by;
    legumeyet_formatter made = {0};
    legumeyet_format asked = {0};
    size_t place = 0;
    int32_t number = -1;
    if (!PyArg_ParseTuple(arguments, "OOOOOO!", &it, &by, &tag.given, &words, &text.given, &PyDict_Type, &given)) return NULL;
    if (by != Py_None && !PyObject_TypeCheck(by, (PyTypeObject *)shared->objects[BOOK]))
        return PyErr_Format(PyExc_TypeError, "a formatter is opened of a book, and not %R", Py_TYPE(by));
    book = by == Py_None ? NULL : (struct open *)by;
    const bool are_rules = PyObject_TypeCheck(it, (PyTypeObject *)shared->objects[RULES]);
    if (!are_rules && !PyObject_TypeCheck(it, (PyTypeObject *)shared->objects[FORMATTER]))
        return PyErr_Format(PyExc_TypeError, "a formatter or rules are opened, and not %R", Py_TYPE(it));
    const bool is_skeleton = words == Py_None, has_text = is_skeleton || text.given != Py_None;
    if (!is_skeleton && !PyArg_ParseTuple(words, "iiiiiii", &asked.notation, &asked.width, &asked.unit, &asked.currency_style, &asked.currency_width,
                                          &asked.grouping, &asked.plurals))
        return NULL;
    if (may_be_opened(shared, it, are_rules ? RULES : FORMATTER) && take_options(shared, given, &tag.options, false) && take_text(&tag, tag.given) &&
        (!has_text || take_text(&text, text.given)) && (book == NULL || is_ready(book)) && is_ready(it))
        number = is_skeleton && book == NULL ? legumeyet_formatter_open_world_skeleton(tag.at, tag.length, text.at, text.length, &place, &made)
            : is_skeleton ? legumeyet_formatter_open_skeleton(&book->handle.book, tag.at, tag.length, text.at, text.length, &place, &made)
            : book == NULL ? legumeyet_formatter_open_world(tag.at, tag.length, LEGUMEYET_WORDS(asked), text.at, text.length, &made)
            : legumeyet_formatter_open(&book->handle.book, tag.at, tag.length, LEGUMEYET_WORDS(asked), text.at, text.length, &made);
    if (number == LEGUMEYET_OK) {
        close_handle(it);
        it->handle.formatter = made; /* `made` is not used again: a handle is in one place */
        it->options = tag.options;
        it->is_shared = false;
    } else if (number > 0) {
        refused_at(shared, number, number == LEGUMEYET_TAG || number == LEGUMEYET_TABLE ? &tag : &text, place);
    }
    Py_XDECREF(tag.owner);
    Py_XDECREF(text.owner);
    return number == LEGUMEYET_OK ? Py_BuildValue("") : NULL;
}

/* open_answers(answers, book, capacity). */
static PyObject *open_answers(PyObject *module, PyObject *arguments) {
    struct shared *shared = shared_of(module);
    struct open *it, *book;
    Py_ssize_t capacity;
    if (!PyArg_ParseTuple(arguments, "O!O!n", shared->objects[ANSWERS], &it, shared->objects[BOOK], &book, &capacity)) return NULL;
    if (!may_be_opened(shared, it, ANSWERS) || !is_ready(book)) return NULL;
    return nothing_or(shared, legumeyet_answers_open(&book->handle.book, capacity < 0 ? 0 : (size_t)capacity, &it->handle.answers));
}

/* The normal text of a skeleton. */
static PyObject *normal_skeleton(PyObject *module, PyObject *skeleton) {
    struct request asked = {.what = NORMAL, .given = skeleton};
    size_t place = 0;
    int32_t number = 0;
    PyObject *text = take_text(&asked, skeleton) ? text_for(NULL, &asked, &place, &number) : NULL;
    if (number > 0) refused_at(shared_of(module), number, &asked, place);
    Py_XDECREF(asked.owner);
    return text;
}

/* What a number of the library means. */
static PyObject *error_text(PyObject *module, PyObject *given) {
    struct request asked = {.what = MEANING, .integer = PyLong_AsLong(given)};
    int32_t number = LEGUMEYET_OPTION;
    PyObject *text = NULL;
    (void)module;
    if (asked.integer == -1 && PyErr_Occurred()) return NULL;
    if (asked.integer == (int32_t)asked.integer) text = text_for(NULL, &asked, NULL, &number);
    return number > 0 ? PyUnicode_FromString("an error of another version") : text;
}

/* The tag of a locale's name, which is bytes; None is a name too. */
static PyObject *tag_of_locale_name(PyObject *module, PyObject *name) {
    const char *at = name == Py_None ? NULL : PyBytes_AsString(name);
    struct request asked = {.what = NAME, .at = (const uint8_t *)at};
    int32_t number;
    (void)module;
    return at == NULL && name != Py_None ? NULL : text_for(NULL, &asked, NULL, &number);
}

static PyObject *world_locales(PyObject *module, PyObject *none) {
    PyObject *list = PyList_New(0);
    const char *tag;
    (void)module, (void)none;
    for (size_t at = 0; list != NULL && (tag = legumeyet_world_locale(at)) != NULL; at++)
        if (!add(list, PyUnicode_FromString(tag))) Py_CLEAR(list);
    return list;
}

/* forked(): this process is a child of a fork now, and has no other thread. */
static PyObject *forked(PyObject *module, PyObject *none) {
    (void)none;
    shared_of(module)->forks++;
    return Py_BuildValue("");
}

/* use(object, ..): what the modules in Python have, in the order of `enum object` from REFUSAL on. */
static PyObject *use(PyObject *module, PyObject *given) {
    for (Py_ssize_t at = 0; at < PyTuple_Size(given) && REFUSAL + at < OBJECTS; at++) {
        PyObject **place = &shared_of(module)->objects[REFUSAL + at];
        Py_XDECREF(*place);
        *place = PyTuple_GetItem(given, at);
        Py_INCREF(*place);
    }
    return Py_BuildValue("");
}

static PyMethodDef functions[] = {
    {"open_book", open_book, METH_VARARGS, NULL},
    {"open_formatter", open_formatter, METH_VARARGS, NULL},
    {"open_answers", open_answers, METH_VARARGS, NULL},
    {"normal_skeleton", normal_skeleton, METH_O, NULL},
    {"error_text", error_text, METH_O, NULL},
    {"tag_of_locale_name", tag_of_locale_name, METH_O, NULL},
    {"world_locales", world_locales, METH_NOARGS, NULL},
    {"forked", forked, METH_NOARGS, NULL},
    {"use", use, METH_VARARGS, NULL},
    {NULL, NULL, 0, NULL}};

/* Makes the types. */
static int fill(PyObject *module) {
    struct shared *shared = calloc(1, sizeof *shared);
    if (shared == NULL) return PyErr_NoMemory(), -1;
    shared->count = 1;
    *(struct shared **)PyModule_GetState(module) = shared;
    for (int kind = BOOK; kind <= ANSWERS; kind++) {
        PyObject *type = shared->objects[kind] = PyType_FromSpec(&specs[kind]);
        if (type == NULL) return -1;
        Py_INCREF(type); /* what follows takes one over */
        if (PyModule_AddObject(module, strrchr(specs[kind].name, '.') + 1, type) < 0) return Py_DECREF(type), -1;
    }
    if (PyModule_AddIntConstant(module, "VERSION", (long)legumeyet_version()) < 0) return -1;
    return PyModule_AddIntConstant(module, "MINOR", (long)legumeyet_minor());
}

static int traverse(PyObject *module, visitproc visit, void *arg) {
    struct shared *shared = shared_of(module);
    for (int at = 0; shared != NULL && at < OBJECTS; at++) Py_VISIT(shared->objects[at]);
    return 0;
}

/* The types stay: what is called late looks at them. */
static int clear(PyObject *module) {
    struct shared *shared = shared_of(module);
    for (int at = REFUSAL; shared != NULL && at < OBJECTS; at++) Py_CLEAR(shared->objects[at]);
    return 0;
}

static void free_module(void *module) {
    struct shared *shared = shared_of(module);
    if (shared == NULL) return;
    for (int at = 0; at < OBJECTS; at++) Py_CLEAR(shared->objects[at]);
    leave(shared);
    *(struct shared **)PyModule_GetState(module) = NULL;
}

/* The second slot is named from CPython 3.12 on: interpreters with a GIL of their own may import the module. */
enum { MULTIPLE_INTERPRETERS = 3, GIL_OF_ITS_OWN = 2 };
static PyModuleDef_Slot steps[] = {{Py_mod_exec, fill}, {0, NULL}, {0, NULL}};
static struct PyModuleDef definition = {
    PyModuleDef_HEAD_INIT, "_core", "Books, formatters and answers.", sizeof(struct shared *), functions, steps, traverse, clear, free_module};

PyMODINIT_FUNC PyInit__core(void) {
    int major = 0, minor = 0;
    sscanf(Py_GetVersion(), "%d.%d", &major, &minor);
    if (major > 3 || minor >= 12) {
        steps[1].value = (void *)GIL_OF_ITS_OWN;
        steps[1].slot = MULTIPLE_INTERPRETERS;
    }
    return PyModuleDef_Init(&definition);
}
