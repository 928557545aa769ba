#!/bin/sh
# Compares what scenetool says of WAVE files, and plays of them, with SoX, FFmpeg and libsndfile.
#
# Usage: interop/wave_files.sh        (from anywhere; it builds scenetool where that is stale)
#
# Each tool that is installed writes files of every kind, in mono and stereo; two more are of the same sound, with chunks of
# our own. Of each file the channels, rate, width and frames of `scenetool info` are compared with those of soxi, ffprobe and
# sndfile-info, and the samples of `scenetool mix`, in 24 bits at the file's own rate, with those that the tool decodes.
# It prints what it skipped, and what differs for a reason that is known; it ends with status 1 where anything else does.
set -eu
. "$(dirname "$0")/../bench/common.sh"
build_scenetool
for tool in sox soxi ffmpeg ffprobe sndfile-convert sndfile-info; do
    command -v "$tool" > /dev/null || echo "skipped: no $tool (apt-get install sox ffmpeg sndfile-programs)"
done
cd "$work"
python3 "$top/interop/wave_files.py" "$SCENETOOL"
