# What Perl's Text::LineFold makes of mail of format=flowed: texts come from standard input, each as a line of base64, and go out likewise.
use strict;
use warnings;
use MIME::Base64;
use Text::LineFold;
my $fold = Text::LineFold->new(Charset => 'ISO-8859-1', OutputCharset => 'ISO-8859-1', TabSize => 8);
while (my $line = <STDIN>) {
    my $read = $fold->unfold(decode_base64($line), 'FLOWED');
    print encode_base64(defined $read ? $read : '', ''), "\n";
}
