# Patches the copied sources in place: perl patches.pl FOLDER. A row has the file, an anchor, what
# takes its place, and what the source drops there. An anchor that is not found exactly once fails
# the build.
use strict;
use warnings;

my @patches = (
    [
        'task/exception.rs', qr/(?=if result == Err\(ZxError::NEXT\))/,
        'crate::shown::note(result); ',
        'the result of Exception::handle, 0 or NEXT',
    ],
    [
        'task/thread.rs', qr/(?<=Ok\(future\) = )handled\b/,
        'crate::shown::sent(handled)',
        'the NEXT of a ThreadExiting that nobody takes',
    ],
    [
        'task/thread.rs', qr/(self\.dying_run\(future\)\.await)/,
        'crate::shown::closed(self.dying_run(future).await)',
        'how the wait in ThreadExiting ended, 0 or STOP',
    ],
    [
        'task/thread.rs', qr/\.await\s+\.ok\(\);/,
        '.await.map_err(crate::shown::stopped).ok();',
        'the STOP of a thread killed before or during its wait',
    ],
);

my $folder = shift or die "usage: perl patches.pl FOLDER\n";
for my $patch (@patches) {
    my ($file, $anchor, $text, $dropped) = @$patch;
    open(my $in, '<', "$folder/$file") or die "$file: $!\n";
    my $source = do { local $/; <$in> };
    my $places = ($source =~ s/$anchor/$text/g) || 0;
    die "$file: $places places, not one, for the patch of $dropped\n" if $places != 1;
    open(my $out, '>', "$folder/$file") or die "$file: $!\n";
    print $out $source;
    close($out) or die "$file: $!\n";
}
