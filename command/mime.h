/* A whole mail: its headers, the text as format=flowed, and files that are attached. */
#ifndef MIME_H
#define MIME_H

#include "buffer.h"

#include <time.h>

struct attachment {
    const char *name; /* of the file, without its folder */
    const char *type; /* text/plain, say, without a charset */
    const void *bytes;
    size_t length;
};

struct mail {
    const char *from, *to; /* an address, or a name and an address in < > */
    const char *subject;
    time_t date;
    const struct buffer *text; /* lines end in CR LF */
    const struct attachment *attachments;
    size_t attached;
};

/* Puts the mail after the buffer. Answers false, with errno, without memory or without chance for its number. */
bool add_mail(struct buffer *out, const struct mail *mail);
/* Is this one address that can stand in a header: ASCII, with one @, or a name in UTF-8 and such an address in < >? */
bool is_address(const char *text);
/* The longest line of a text in octets, its end apart. Over MOST_OCTETS no server need take it as it is (RFC 5322, 2.1.1). */
enum { MOST_OCTETS = 998 };
size_t longest_line(const struct buffer *text);

#endif
