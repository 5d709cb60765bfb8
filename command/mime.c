/* A whole mail (RFC 5322, 2045, 2047, 3676).
 *
 * Nothing of the notes or of a file's name is in a header as it is: what is not printable ASCII is written as encoded words, and so no
 * line end in it can begin a header of its own. */
#define _GNU_SOURCE /* getentropy */
#include "mime.h"

#include "visible.h"

#include <errno.h>
#include <stdio.h>
#include <string.h>
#include <unistd.h>

/* ---- base64 */

static const char DIGITS[] = "ABCDEFGHIJKLMNOPQRSTUVWXYZabcdefghijklmnopqrstuvwxyz0123456789+/";

static bool add_base64(struct buffer *out, const uint8_t *bytes, size_t length) {
    uint32_t three;
    char four[4];
    size_t i, taken;
    for (i = 0; i < length; i += taken) {
        taken = length - i < 3 ? length - i : 3;
        three = (uint32_t)bytes[i] << 16 | (taken > 1 ? (uint32_t)bytes[i + 1] << 8 : 0) | (taken > 2 ? bytes[i + 2] : 0);
        four[0] = DIGITS[three >> 18];
        four[1] = DIGITS[three >> 12 & 63];
        four[2] = taken > 1 ? DIGITS[three >> 6 & 63] : '=';
        four[3] = taken > 2 ? DIGITS[three & 63] : '=';
        if (!buffer_add(out, four, 4))
            return false;
    }
    return true;
}

/* Lines of 76, which are 57 bytes. */
static bool add_base64_lines(struct buffer *out, const uint8_t *bytes, size_t length) {
    size_t i, taken;
    for (i = 0; i < length; i += taken) {
        taken = length - i < 57 ? length - i : 57;
        if (!add_base64(out, bytes + i, taken) || !buffer_add(out, "\r\n", 2))
            return false;
    }
    return true;
}

/* ---- headers */

static bool is_plain(const char *text) {
    for (; *text != '\0'; text++)
        if (*text < ' ' || *text > '~')
            return false;
    return true;
}

/* The characters of a text that one encoded word takes: at most 39 bytes, so that with a header's name before it it has no more than 76 signs, and no
 * character is parted. A byte of no character becomes U+FFFD. */
static size_t add_word_bytes(struct buffer *word, const char *text) {
    const uint8_t *at = (const uint8_t *)text;
    size_t length = strlen(text), taken = 0, size;
    uint32_t character;
    while (taken < length && word->length <= 39 - 4) {
        size = character_at(at + taken, length - taken, &character);
        if (!(size == 0 ? buffer_add(word, "\xEF\xBF\xBD", 3) : buffer_add(word, at + taken, size)))
            return 0;
        taken += size == 0 ? 1 : size;
    }
    return taken;
}

/* A text in a header: plain ASCII as it is, in lines where blanks allow it; anything else as encoded words, a line each. */
static bool add_encoded(struct buffer *out, const char *text) {
    struct buffer word = {0};
    bool well = true, first = true;
    size_t taken;
    while (well && *text != '\0') {
        word.length = 0;
        taken = add_word_bytes(&word, text);
        well = taken > 0 && buffer_print(out, "%s=?UTF-8?B?", first ? "" : "\r\n ") && add_base64(out, word.bytes, word.length) && buffer_add(out, "?=", 2);
        first = false;
        text += taken;
    }
    buffer_free(&word);
    return well;
}

/* Folded at a blank where a line would have over 78 signs. */
static bool add_folded(struct buffer *out, const char *text, size_t column) {
    const char *end;
    size_t length;
    for (; *text != '\0'; text = end) {
        end = text + 1;
        while (*end != '\0' && *end != ' ')
            end++;
        length = (size_t)(end - text);
        if (column + length > 78 && *text == ' ' && length > 1) {
            if (!buffer_add(out, "\r\n", 2))
                return false;
            column = 0;
        }
        if (!buffer_add(out, text, length))
            return false;
        column += length;
    }
    return true;
}

/* Text that looks like an encoded word must be one. */
static bool add_text_header(struct buffer *out, const char *name, const char *text) {
    return buffer_print(out, "%s: ", name) && (is_plain(text) && strstr(text, "=?") == NULL ? add_folded(out, text, strlen(name) + 2) : add_encoded(out, text)) &&
           buffer_add(out, "\r\n", 2);
}

/* ---- addresses */

/* The address in < >, or the whole: from there to there. */
static const char *address_in(const char *text, size_t *length) {
    const char *open = strrchr(text, '<'), *close = open == NULL ? NULL : strchr(open, '>');
    if (open == NULL) {
        *length = strlen(text);
        return text;
    }
    *length = close == NULL || close[1] != '\0' ? 0 : (size_t)(close - open - 1);
    return open + 1;
}

static bool in_address(char letter) { return letter > ' ' && letter <= '~' && strchr("<>()[]\\,;:\"", letter) == NULL; }

bool is_address(const char *text) {
    size_t length, ats = 0, i;
    const char *address = address_in(text, &length);
    for (i = 0; i < length; i++) {
        if (!in_address(address[i]))
            return false;
        ats += address[i] == '@';
    }
    return length > 2 && ats == 1 && address[0] != '@' && address[length - 1] != '@';
}

/* The name before the address, as a quoted string or as encoded words; quotes that it came in are no part of it. */
static bool add_display_name(struct buffer *out, const char *text, size_t length) {
    struct buffer name = {0};
    bool quoted = length > 1 && text[0] == '"' && text[length - 1] == '"';
    bool well = buffer_add(&name, text + quoted, length - 2 * quoted) && buffer_add(&name, "", 1);
    const char *at = (const char *)name.bytes;
    if (well && is_plain(at) && strpbrk(at, "\"\\") == NULL && strstr(at, "=?") == NULL)
        well = buffer_print(out, "\"%s\" ", at);
    else
        well = well && add_encoded(out, at) && buffer_add(out, "\r\n ", 3);
    buffer_free(&name);
    return well;
}

static bool add_address_header(struct buffer *out, const char *name, const char *text) {
    size_t length, named;
    const char *address = address_in(text, &length);
    if (!buffer_print(out, "%s: ", name))
        return false;
    if (address == text)
        return buffer_print(out, "%s\r\n", text);
    named = (size_t)(address - text) - 1;
    while (named > 0 && text[named - 1] == ' ')
        named--;
    return (named == 0 || add_display_name(out, text, named)) && buffer_print(out, "<%.*s>\r\n", (int)length, address);
}

/* ---- date and number */

static bool add_date(struct buffer *out, time_t date) {
    static const char *const DAYS[] = {"Sun", "Mon", "Tue", "Wed", "Thu", "Fri", "Sat"};
    static const char *const MONTHS[] = {"Jan", "Feb", "Mar", "Apr", "May", "Jun", "Jul", "Aug", "Sep", "Oct", "Nov", "Dec"};
    struct tm local;
    char zone[8];
    if (localtime_r(&date, &local) == NULL || strftime(zone, sizeof zone, "%z", &local) != 5)
        return false;
    return buffer_print(out, "Date: %s, %d %s %d %02d:%02d:%02d %s\r\n", DAYS[local.tm_wday], local.tm_mday, MONTHS[local.tm_mon], local.tm_year + 1900, local.tm_hour,
                        local.tm_min, local.tm_sec, zone);
}

static bool chance(char hex[33]) {
    uint8_t bytes[16];
    int i;
    if (getentropy(bytes, sizeof bytes) != 0)
        return false;
    for (i = 0; i < 16; i++)
        snprintf(hex + 2 * i, 3, "%02x", (unsigned)bytes[i]);
    return true;
}

static bool add_number(struct buffer *out, const char *from) {
    size_t length;
    const char *address = address_in(from, &length), *at = memchr(address, '@', length);
    char hex[33];
    return chance(hex) && buffer_print(out, "Message-ID: <%s%.*s>\r\n", hex, at == NULL ? 10 : (int)(length - (size_t)(at - address)), at == NULL ? "@localhost" : at);
}

/* ---- the text */

size_t longest_line(const struct buffer *text) {
    size_t longest = 0, length = 0, i;
    for (i = 0; i < text->length; i++) {
        length = text->bytes[i] == '\n' ? 0 : length + (text->bytes[i] != '\r');
        if (length > longest)
            longest = length;
    }
    return longest;
}

/* As it is: lines that every server takes, each ended by CR LF, and neither NUL nor a lone CR or LF. */
static bool goes_as_it_is(const struct buffer *text) {
    size_t i;
    for (i = 0; i < text->length; i++) {
        if (text->bytes[i] == 0 || (text->bytes[i] == '\n' && (i == 0 || text->bytes[i - 1] != '\r')))
            return false;
        if (text->bytes[i] == '\r' && (i + 1 == text->length || text->bytes[i + 1] != '\n'))
            return false;
    }
    return longest_line(text) <= MOST_OCTETS;
}

static bool is_ascii(const struct buffer *text) {
    size_t i;
    for (i = 0; i < text->length; i++)
        if (text->bytes[i] >= 0x80)
            return false;
    return true;
}

static bool ends_line(const struct buffer *text, size_t at) { return at + 1 < text->length && text->bytes[at] == '\r' && text->bytes[at + 1] == '\n'; }

/* Quoted-printable: a blank at a line's end is written out, or it would be lost, and flowed text needs it; so is a dot or an F at a line's start,
 * which some servers change. */
static bool is_quoted(const struct buffer *text, size_t at, size_t column) {
    uint8_t byte = text->bytes[at];
    bool last = at + 1 == text->length || ends_line(text, at + 1);
    if (byte == ' ' || byte == '\t')
        return last;
    return byte < ' ' || byte > '~' || byte == '=' || (column == 0 && (byte == '.' || byte == 'F'));
}

static bool add_quoted_printable(struct buffer *out, const struct buffer *text) {
    size_t i, column = 0, size;
    bool quoted, well = true;
    for (i = 0; well && i < text->length; i++) {
        if (ends_line(text, i)) {
            well = buffer_add(out, "\r\n", 2);
            column = 0;
            i++;
            continue;
        }
        quoted = is_quoted(text, i, column);
        size = quoted ? 3 : 1;
        if (column + size > 75) {
            well = buffer_add(out, "=\r\n", 3);
            column = 0;
            quoted = is_quoted(text, i, column);
            size = quoted ? 3 : 1;
        }
        well = well && (quoted ? buffer_print(out, "=%02X", (unsigned)text->bytes[i]) : buffer_add(out, &text->bytes[i], 1));
        column += size;
    }
    return well;
}

static bool add_text(struct buffer *out, const struct buffer *text) {
    bool as_it_is = goes_as_it_is(text);
    const char *way = !as_it_is ? "quoted-printable" : is_ascii(text) ? "7bit" : "8bit";
    return buffer_print(out, "Content-Type: text/plain; charset=UTF-8; format=flowed\r\nContent-Transfer-Encoding: %s\r\n\r\n", way) &&
           (as_it_is ? buffer_add(out, text->bytes, text->length) : add_quoted_printable(out, text));
}

/* ---- attachments */

/* A name in a parameter: plain ASCII in quotes, anything else by RFC 2231. */
static bool add_file_name(struct buffer *out, const char *name) {
    const uint8_t *at = (const uint8_t *)name;
    bool well;
    if (is_plain(name) && strpbrk(name, "\"\\") == NULL && strlen(name) <= 60)
        return buffer_print(out, "; filename=\"%s\"", name);
    well = buffer_print(out, ";\r\n filename*=UTF-8''");
    for (; well && *at != '\0'; at++)
        well = (*at >= '0' && *at <= '9') || (*at >= 'A' && *at <= 'Z') || (*at >= 'a' && *at <= 'z') || *at == '.' || *at == '-' || *at == '_'
                   ? buffer_add(out, at, 1)
                   : buffer_print(out, "%%%02X", (unsigned)*at);
    return well;
}

static bool add_attachment(struct buffer *out, const struct attachment *attachment) {
    return buffer_print(out, "Content-Type: %s\r\nContent-Transfer-Encoding: base64\r\nContent-Disposition: attachment", attachment->type) &&
           add_file_name(out, attachment->name) && buffer_add(out, "\r\n\r\n", 4) && add_base64_lines(out, attachment->bytes, attachment->length);
}

/* The parts, each after a line that no part has: it is chance, and no line of base64 or of quoted-printable has its first signs. */
static bool add_parts(struct buffer *out, const struct mail *mail) {
    char hex[33];
    size_t i;
    bool well = chance(hex) && buffer_print(out, "Content-Type: multipart/mixed; boundary=\"=_%s\"\r\n\r\n--=_%s\r\n", hex, hex) && add_text(out, mail->text);
    for (i = 0; well && i < mail->attached; i++)
        well = buffer_print(out, "\r\n--=_%s\r\n", hex) && add_attachment(out, &mail->attachments[i]);
    return well && buffer_print(out, "\r\n--=_%s--\r\n", hex);
}

bool add_mail(struct buffer *out, const struct mail *mail) {
    return add_address_header(out, "From", mail->from) && add_address_header(out, "To", mail->to) && add_text_header(out, "Subject", mail->subject) && add_date(out, mail->date) &&
           add_number(out, mail->from) && buffer_print(out, "MIME-Version: 1.0\r\n") && (mail->attached == 0 ? add_text(out, mail->text) : add_parts(out, mail));
}
