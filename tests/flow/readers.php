<?php
// What other mail software makes of mail: readers.php horde|roundcube read|write
//
// Texts come from standard input, each as a line of base64, and go out likewise. `read` gives a text's paragraphs, one a line, with its quote
// marks and without stuffing, as that software reads format=flowed; `write` makes such mail of a text.
[, $which, $way] = $argv;
if ($which === 'horde') {
    foreach (['Horde/Util.php', 'Horde/String.php', 'Horde/Text/Flowed.php'] as $part) {
        @include_once $part;
    }
    $read = function ($text) {
        $flowed = new Horde_Text_Flowed($text);
        $flowed->setMaxLength(0);
        $found = [];
        foreach ($flowed->toFixedArray() as $line) {
            $found[] = $line['text'];
        }
        return implode("\n", $found);
    };
    $write = function ($text) {
        $flowed = new Horde_Text_Flowed($text);
        return str_replace("\n", "\r\n", $flowed->toFlowed());
    };
} else {
    define('RCUBE_CHARSET', 'UTF-8');
    require getenv('ROUNDCUBE') ?: '/usr/share/roundcube/program/lib/Roundcube/rcube_mime.php';
    $read = fn($text) => str_replace("\r\n", "\n", rcube_mime::unfold_flowed($text));
    $write = fn($text) => rcube_mime::format_flowed($text, 72, 'UTF-8');
}
while (($line = fgets(STDIN)) !== false) {
    echo base64_encode(($way === 'read' ? $read : $write)(base64_decode(rtrim($line, "\n")))), "\n";
}
