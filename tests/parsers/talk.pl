# Feeds answers to Mail::IMAPTalk (Debian's libmail-imaptalk-perl) on a socket pair, and prints what it understood.
# Standard input: a case a line, fields with TAB between them in hexadecimal: a name, a tag, the bytes. Output: a line a case, JSON.
use strict;
use warnings;
use IO::Socket;
use Socket;
use JSON::PP;
use Mail::IMAPTalk;

my $json = JSON::PP->new->canonical->latin1;
$SIG{__WARN__} = sub { };
$SIG{PIPE} = 'IGNORE';

while (my $line = <STDIN>) {
  chomp $line;
  my ($name, $tag, $bytes) = map { pack('H*', $_) } split(/\t/, $line, -1);
  my %told = (name => $name);
  socketpair(my $client, my $server, AF_UNIX, SOCK_STREAM, PF_UNSPEC) or die "socketpair: $!";
  bless $client, 'IO::Socket::UNIX';
  # the socket pair holds a whole answer, so that nothing has to be written while it is read
  my $sent = "* OK [CAPABILITY IMAP4rev2 AUTH=PLAIN] murder ready\r\n$bytes";
  $server->blocking(0);
  (syswrite($server, $sent) // 0) == length $sent or die "the socket pair doesn't hold $name\n";
  close $server;
  eval {
    local $SIG{ALRM} = sub { die "waited\n" };
    alarm 5;
    my $talk = Mail::IMAPTalk->new(Socket => $client, Separator => '.', PreserveINBOX => 1, ExpectGreeting => 1) or die "no greeting: $@\n";
    $talk->{CmdId} = $tag;
    $talk->{LastCmd} = $bytes =~ / OK LOGOUT / ? 'logout' : 'x';
    $talk->uid(0);
    $talk->{Cache} = {};
    my @messages;
    # of lines about messages the cache has the last alone: a callback is given each, in their order
    my $given = sub {
      my ($kind, $items, $number) = @_;
      push @messages, [$kind, $number, ref $items ? $items : ()];
    };
    @told{qw(status result)} = $talk->_parse_response({ map { ($_ => $given) } qw(exists expunge fetch) }, {});
    $told{messages} = \@messages;
    $told{items} = $talk->{Cache};
    $told{left} = length($talk->{ReadBuf} // '') + (sysread($client, my $rest, 65536) // 0);
    alarm 0;
  };
  $told{error} = "$@" if $@;
  alarm 0;
  print $json->encode(\%told), "\n";
}
