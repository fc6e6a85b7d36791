#!/bin/bash
# places.sh ROOT FNPATH
file=$(find $1 -path "*·run·proofs/proofs/$2/Lts.antt" | head -1)
grep -nE '^ +(pub record (After|Then|Else|At|In|Joined|Left|Start)|pub before :|Need-[^ ]* =|\(c : )' "$file" | cut -c1-130 | grep -v "own :" |
    awk '/\(c : /{if(!r)next; r=0} /Need-/{r=1} {print}' | sed 's/^[0-9]*: *//' | paste -sd' ' |
    sed 's/pub record/\n/g; s/Need/\nNeed/g; s/ : Type 0 where pub before : / <- /g'
