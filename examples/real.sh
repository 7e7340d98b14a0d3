#!/bin/bash
# Real streams through the tools: two transport streams by ffmpeg, of different codecs, multiplexed, taken apart again and compared;
# then the same with one packet in a thousand lost. Needs ffmpeg and ffprobe.
#   examples/real.sh MUX DEMUX
set -euo pipefail
mux=$(realpath -s "$1") demux=$(realpath -s "$2") # not the file behind the name, which says what it does
work=$(mktemp -d)
trap 'rm -rf "$work"' EXIT
cd "$work"
make_stream() { # FILE VIDEO_CODEC AUDIO_CODEC PICTURE TONE
    ffmpeg -loglevel error -f lavfi -i "$4=size=352x288:rate=25" -f lavfi -i "sine=frequency=$5" -t 6 \
        -c:v "$2" -g 12 -b:v 1M -c:a "$3" -b:a 128k -f mpegts "$1"
}
tracks() { ffprobe -loglevel fatal -show_entries stream=codec_name -of default=nw=1:nk=1 "$1" | sort -u | paste -sd ' '; }
packets() { echo $(($(stat -c %s "$1") / 188)); }

make_stream news.ts mpeg2video mp2 testsrc 440
make_stream film.ts libx264 aac mandelbrot 880
"$mux" 0x1FF0 26 1 32736 news.ts 26 2 32736 film.ts >frames
echo "multiplexed: news.ts $(packets news.ts) packets, film.ts $(packets film.ts) packets, in $(packets frames) packets"
"$demux" 0x1FF0 1 frames >news.out 2>summary
"$demux" 0x1FF0 2:32736 frames >film.out 2>>summary
cat summary
cmp news.ts news.out
cmp film.ts film.out
echo "both came back byte for byte; ffprobe reads: $(tracks news.out) and $(tracks film.out)"
"$mux" --short 0x1FF0 20 1 32736 news.ts 20 2 32736 film.ts >short
"$demux" --short 0x1FF0 1 short 2>summary | cmp - news.ts
"$demux" --short 0x1FF0 2:32736 short 2>>summary | cmp - film.ts
cat summary
echo "in short frames too: $(packets short) packets"

# Every packet that comes out of the damaged frames is to stand in its own stream, in its order: nothing may be added.
perl -e 'srand 7; local $/ = \188; while (<STDIN>) { print unless rand() < 0.001 }' <frames >lossy
echo "one packet in a thousand lost: $(packets lossy) of $(packets frames) packets left"
check_lossy() { # STREAM FILE
    "$demux" 0x1FF0 "$1" lossy >lossy.out 2>summary
    cat summary
    perl -e 'local $/ = \188; open A, "<", $ARGV[0]; open B, "<", $ARGV[1]; my $added = 0;
        while (my $p = <B>) { my $q; do { $q = <A> } while defined $q && $q ne $p; if (!defined $q) { $added = 1; last } }
        exit $added' "$2" lossy.out || { echo "$2: a packet came out that does not belong there"; exit 1; }
    echo "$2: $(packets lossy.out) of $(packets "$2") packets came out, each its own and in order; ffprobe reads: $(tracks lossy.out)"
}
check_lossy 1 news.ts
check_lossy 2 film.ts
