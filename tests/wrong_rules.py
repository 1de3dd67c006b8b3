#!/usr/bin/env python3
"""Wrong rules, one at a time: each is put into a copy of the definition, and a worked example must refuse it.

With no argument it tries all of them, which takes some 35 minutes of one core: run it when a rule or an example has changed.
With --some N --seed S it tries N of them, chosen by the seed; ./test does so.
It prints each rule that behaves other than it is marked, and exits 0 where there is none.
"""
import argparse
import os
import pathlib
import random
import re
import shutil
import subprocess
import sys
import tempfile
from concurrent.futures import ThreadPoolExecutor

TOP = pathlib.Path(__file__).resolve().parent.parent
EXAMPLES = ["Opened", "Worked", "Layouts", "Readings", "Runs", "Numbers", "Characters"]
# Those of crates/worked, which take longer: asked where the others take a rule.
WHOLE_IMAGES = ["Computed"]

# A rule that gives other outcomes, and one that nobody can tell from the right one (docs/DECISIONS.md, 10).
WRONG, SAME = "wrong", "same"

# Marked, named, in a file of specs/: the text that stands there once, and what is put in its place.
RULES = [
    # ---- Image
    (WRONG, 'field one wider', 'Image', 'below s.width p.x.0', 'below (1 + s.width) p.x.0'),
    (WRONG, 'field one higher', 'Image', 'below s.height p.y.0', 'below (1 + s.height) p.y.0'),
    (WRONG, 'field from 1', 'Image', 'le_z (pos 0) z', 'le_z (pos 1) z'),
    (WRONG, 'field from -1', 'Image', 'le_z (pos 0) z && lt_z z (pos n)', 'lt_z z (pos n)'),
    (WRONG, 'row of 129', 'Image', 'row = 128', 'row = 129'),
    (WRONG, '3 digits a byte', 'Image', 'digits = 4', 'digits = 3'),
    (WRONG, 'base 3', 'Image', 'base = 4', 'base = 3'),
    (WRONG, 'image bytes', 'Image', 'image_bytes = 65536', 'image_bytes = 65535'),
    (WRONG, 'blank of 1', 'Image', 'replicate image_bytes 0', 'replicate image_bytes 1'),
    (WRONG, 'units Y 4', 'Image', 'units_y = 2', 'units_y = 4'),
    (WRONG, 'units X 4', 'Image', 'units_x = 2', 'units_x = 4'),
    (WRONG, 'x y swapped in pixelAt', 'Image', 'record { x = pixels_of s.units_x x; y = pixels_of s.units_y y }', 'record { x = pixels_of s.units_x y; y = pixels_of s.units_y x }'),
    (WRONG, 'putDigit keeps too little', 'Image', '* b ^ k + byte % b ^ k', '* b ^ k'),
    (WRONG, 'putDigit loses above', 'Image', '(byte / (b ^ k * b) * b + v)', 'v'),
    (WRONG, 'put ors', 'Image', '(byte / (b ^ k * b) * b + v) * b ^ k + byte % b ^ k', 'byte + v * b ^ k'),
    (WRONG, 'stores the old', 'Image', '(pen (digit_at s im x y)))', '(digit_at s im x y))'),
    (WRONG, 'inside drops none', 'Image', 'pick (in_field s p) (p ∷ inside s ps) (inside s ps)', 'p ∷ inside s ps'),
    # ---- Characters
    (WRONG, 'first code of 8 bits', 'Words', 'first_code w = bits 6 0 w', 'first_code w = bits 7 0 w'),
    (WRONG, 'second code from bit 7', 'Words', 'second_code w = bits 14 8 w', 'second_code w = bits 13 7 w'),
    (WRONG, 'halves exchanged', 'Words', '(Characters (first_code w) (second_code w))', '(Characters (second_code w) (first_code w))'),
    (WRONG, '32 of the first alone', 'Words', 'not (is_code (first_code w) && is_code (second_code w))', 'not (is_code (first_code w))'),
    (WRONG, '32 of the second alone', 'Words', 'not (is_code (first_code w) && is_code (second_code w))', 'not (is_code (second_code w))'),
    (WRONG, '32 where both are wrong', 'Words', 'not (is_code (first_code w) && is_code (second_code w))', 'not (is_code (first_code w)) && not (is_code (second_code w))'),
    (WRONG, '32 in every mode', 'Words', 'not (bit 15 w) && eqb mode 0 && not', 'not (bit 15 w) && not'),
    (WRONG, '32 of orders', 'Words', 'not (bit 15 w) && eqb mode 0 && not', 'eqb mode 0 && not'),
    (WRONG, 'code 127 taken', 'Words', 'within 32 126 c', 'within 32 127 c'),
    (WRONG, 'code 31 taken', 'Words', 'within 32 126 c', 'within 31 126 c'),
    (WRONG, 'code 126 refused', 'Words', 'within 32 126 c', 'within 32 125 c'),
    (WRONG, 'built-in though lent', 'Characters', 'pick (eqb (length lent) 0) built lent', 'built'),
    (WRONG, 'empty set serves', 'Characters', 'pick (eqb (length lent) 0) built lent', 'lent'),
    (WRONG, 'cells from code 33', 'Characters', '8 * (c - 32)', '8 * (c - 33)'),
    (WRONG, 'cells of seven bytes', 'Characters', '8 * (c - 32)', '7 * (c - 32)'),
    (WRONG, 'lowest bit leftmost', 'Characters', 'row / 2 ^ (7 - k) % 2', 'row / 2 ^ k % 2'),
    (WRONG, 'clear bits lit', 'Characters', 'pick (is_set row k) (pixel (x +ℤ pos k) y ∷ []) []', 'pixel (x +ℤ pos k) y ∷ []'),
    (WRONG, 'bits turned', 'Characters', 'pick (is_set row k) (pixel (x +ℤ pos k) y ∷ []) []', 'pick (is_set row k) [] (pixel (x +ℤ pos k) y ∷ [])'),
    (WRONG, 'seven columns', 'Characters', '(pixel (x +ℤ pos k) y ∷ []) []) 8', '(pixel (x +ℤ pos k) y ∷ []) []) 7'),
    (WRONG, 'bottom row first', 'Characters', 'pos (7 - r)', 'pos r'),
    (WRONG, 'corner one up', 'Characters', 'pos (7 - r)', 'pos (8 - r)'),
    (WRONG, 'seven rows', 'Characters', '(get_or cell r 0)) 8', '(get_or cell r 0)) 7'),
    (WRONG, 'advance of 8', 'Step', 'advance = 16', 'advance = 8'),
    (WRONG, 'one advance a word', 'Step', 'way (Move (units (pos (2 * advance)))) Stay', 'way (Move (units (pos advance))) Stay'),
    (WRONG, 'Y advances', 'Step', 'way (Move (units (pos (2 * advance)))) Stay', 'way Stay (Move (units (pos (2 * advance))))'),
    (WRONG, 'second over the first', 'Step', 'character_at g.set m (moved m.x (units (pos advance))) m.y second', 'character_at g.set m m.x m.y second'),
    (WRONG, 'one character a word', 'Step', 'character_at g.set m m.x m.y first\n    ++ character_at', 'character_at'),
    (WRONG, '18 of 761', 'Calls', 'eqb (length set) 0 || eqb (length set) set_bytes', 'eqb (length set) 0 || eqb (length set) set_bytes || eqb (length set) 761'),
    (WRONG, '18 of none', 'Calls', 'eqb (length set) 0 || eqb (length set) set_bytes', 'eqb (length set) set_bytes'),
    (WRONG, '18 never', 'Calls', '18 when not (eqb (length set) 0 || eqb (length set) set_bytes) ∷ []', '[]'),
    (WRONG, '18 after 28', 'Calls', 'set_doors l.set ∷ running_doors m ∷ []', 'running_doors m ∷ set_doors l.set ∷ []'),
    (WRONG, '18 before 17', 'Calls', 'budget_doors b ∷ set_doors l.set ∷', 'set_doors l.set ∷ budget_doors b ∷'),
    # ---- File
    (WRONG, 'tag 2', 'File', 'not (eqb (tag f) 1)', 'not (eqb (tag f) 2)'),
    (WRONG, 'n to 9', 'File', 'ltb 8 (segments f)', 'ltb 9 (segments f)'),
    (WRONG, 'n to 7', 'File', 'ltb 8 (segments f)', 'ltb 7 (segments f)'),
    (WRONG, 'n 0 taken', 'File', '(eqb (segments f) 0 || ltb 8 (segments f))', 'ltb 8 (segments f)'),
    (WRONG, 'header 1 + 2n', 'File', 'header f = 2 + 2 * segments f', 'header f = 1 + 2 * segments f'),
    (WRONG, 'no header 12', 'File', '    ∷ 12 when ltb (length f) (header f)\n', ''),
    (WRONG, 'no two-word 12', 'File', '    12 when ltb (length f) 2\n    ∷ 13', '    13'),
    (WRONG, 'length 4097', 'File', 'leb long 4096', 'leb long 4097'),
    (WRONG, 'length 4095', 'File', 'leb long 4096', 'leb long 4095'),
    (WRONG, 'offset in header', 'File', 'leb head start && leb long 4096', 'leb long 4096'),
    (WRONG, 'offset alone', 'File', 'leb (start + long) words', 'leb start words'),
    (WRONG, 'sum below', 'File', 'leb (start + long) words', 'ltb (start + long) words'),
    (WRONG, 'last segment not asked', 'File', 'keep_below f (suc i) = keeps (header f) (length f) (offset f i) (size f i) && keep_below f i', 'keep_below f (suc i) = keep_below f i'),
    (WRONG, 'only first', 'File', 'keep_below f (segments f)', 'keep_below f 1'),
    (WRONG, 'offset size swapped', 'File', 'offset f i = get_or f (2 + 2 * i) 0', 'offset f i = get_or f (3 + 2 * i) 0'),
    (WRONG, 'segment by w/4095', 'File', 'a / 2 / 4096', 'a / 2 / 4095'),
    (WRONG, 'place mod 4095', 'File', 'a / 2 % 4096', 'a / 2 % 4095'),
    (WRONG, 'odd taken', 'File', 'pick (not (eqb (a % 2) 0)) (Err Odd)\n    (pick', '(pick'),
    (WRONG, 'segment n taken', 'File', 'leb (segments f) (segment_of a)', 'ltb (segments f) (segment_of a)'),
    (WRONG, 'place at length', 'File', 'leb (size f (segment_of a)) (place_of a)', 'ltb (size f (segment_of a)) (place_of a)'),
    (WRONG, 'no offset in fetch', 'File', '(Ok (get_or f (offset f (segment_of a) + place_of a) 0))', '(Ok (get_or f (header f + place_of a) 0))'),
    (WRONG, '21 22 numbers', 'File', 'number_of NoSegment = 22', 'number_of NoSegment = 21'),
    # ---- Words
    (WRONG, 'code bits', 'Words', 'code w = bits 14 11 w', 'code w = bits 13 11 w'),
    (WRONG, 'modes to 5', 'Words', 'leb c 6', 'leb c 5'),
    (WRONG, '24 from 8', 'Words', 'within 7 11 c', 'within 8 11 c'),
    (WRONG, '24 to 10', 'Words', 'within 7 11 c', 'within 7 10 c'),
    (WRONG, '24 for 0', 'Words', 'not_built c = within 7 11 c', 'not_built c = eqb c 0 || within 7 11 c'),
    (WRONG, 'mode 0 never set', 'Words', 'leb c 6', 'within 1 6 c'),
    (WRONG, 'mode bit 9', 'Words', 'sets = bit 10 w; value', 'sets = bit 9 w; value'),
    (WRONG, 'value bits 9 7', 'Words', 'sets = bit 10 w; value = bits 9 8 w', 'sets = bit 10 w; value = bits 8 7 w'),
    (WRONG, 'latch bits', 'Words', 'loads = bit 9 w; latch = bit 8 w', 'loads = bit 8 w; latch = bit 9 w'),
    (WRONG, 'stop bit', 'Words', 'stops = bit 10 w', 'stops = bit 7 w'),
    (WRONG, 'status C write bit', 'Words', 'write = bit 4 w', 'write = bit 5 w'),
    (WRONG, 'status C channel', 'Words', 'channel = bits 9 8 w', 'channel = bits 8 8 w'),
    (WRONG, 'increment bit', 'Words', 'sets = bit 6 w; increment', 'sets = bit 7 w; increment'),
    (WRONG, 'increment 7 bits', 'Words', 'increment = bits 5 0 w', 'increment = bits 6 0 w'),
    (WRONG, 'increment 5 bits', 'Words', 'increment = bits 5 0 w', 'increment = bits 5 1 w'),
    (WRONG, 'short X size', 'Words', 'bits 12 7 w', 'bits 11 7 w'),
    (WRONG, 'short Y size', 'Words', 'move (bit 6 w) (bits 5 0 w)', 'move (bit 6 w) (bits 4 0 w)'),
    (WRONG, 'short Y sign', 'Words', 'move (bit 6 w) (bits 5 0 w)', 'move (bit 7 w) (bits 5 0 w)'),
    (WRONG, 'long size', 'Words', 'long w = move (bit 13 w) (bits 9 0 w)', 'long w = move (bit 13 w) (bits 10 0 w)'),
    (WRONG, 'long sign', 'Words', 'long w = move (bit 13 w) (bits 9 0 w)', 'long w = move (bit 12 w) (bits 9 0 w)'),
    (WRONG, 'coordinate 11 bits', 'Words', 'coordinate w = units (pos (bits 9 0 w))', 'coordinate w = units (pos (bits 10 0 w))'),
    (WRONG, 'coordinate signed', 'Words', 'coordinate w = units (pos (bits 9 0 w))', 'coordinate w = move (bit 13 w) (bits 9 0 w)'),
    (WRONG, 'lit bit', 'Words', 'eqb mode 0 || bit 14 w', 'eqb mode 0 || bit 13 w'),
    (WRONG, 'characters lit by bit 14', 'Words', 'eqb mode 0 || bit 14 w', 'bit 14 w'),
    (WRONG, 'lit always', 'Words', 'eqb mode 0 || bit 14 w', 'true'),
    (WRONG, 'modes 4 5 swapped', 'Words', 'pick (eqb mode 4) (GraphX', 'pick (eqb mode 5) (GraphX'),
    (WRONG, '25 never', 'Words', 'eqb mode none)', 'eqb mode 254)'),
    (WRONG, '26 not', 'Words', '26 when bit 15 v ∷ []', '[]'),
    (WRONG, 'absolute one word', 'Words', 'paired (AbsolutePoint x) = true', 'paired (AbsolutePoint x) = false'),
    # ---- Machine
    (WRONG, 'no wrap', 'Machine', 'next c = (c + 2) % 2 ^ 16', 'next c = c + 2'),
    (WRONG, 'counter by 1', 'Machine', 'next c = (c + 2) % 2 ^ 16', 'next c = (c + 1) % 2 ^ 16'),
    (WRONG, 'range low', 'Machine', 'le_z (negsuc 4095) u.0', 'le_z (negsuc 4096) u.0'),
    (WRONG, 'range low2', 'Machine', 'le_z (negsuc 4095) u.0', 'le_z (negsuc 4094) u.0'),
    (WRONG, 'range high', 'Machine', 'le_z u.0 (pos 4095)', 'le_z u.0 (pos 4096)'),
    (WRONG, 'range high2', 'Machine', 'le_z u.0 (pos 4095)', 'le_z u.0 (pos 4094)'),
    (WRONG, 'mode 0 out of range', 'Machine', 'eqb k none || sets_mode k', 'eqb k none || leb 1 k && sets_mode k'),
    (WRONG, 'among the first', 'Choice', 'among n (k ∷ ks) = eqb n k || among n ks', 'among n (k ∷ ks) = eqb n k'),
    (WRONG, 'status 3', 'Machine', 'statuses = 0 ∷ 1 ∷ 2 ∷ refusal_numbers', 'statuses = 0 ∷ 1 ∷ 2 ∷ 3 ∷ refusal_numbers'),
    (WRONG, 'status 28', 'Machine', '∷ 27 ∷ 32 ∷ []', '∷ 27 ∷ 28 ∷ 32 ∷ []'),
    (WRONG, 'status 18', 'Machine', '∷ 27 ∷ 32 ∷ []', '∷ 27 ∷ 32 ∷ 18 ∷ []'),
    (WRONG, 'no status 32', 'Machine', '∷ 27 ∷ 32 ∷ []', '∷ 27 ∷ []'),
    (WRONG, 'status 20', 'Machine', 'refusal_numbers = 21 ∷', 'refusal_numbers = 20 ∷ 21 ∷'),
    (WRONG, 'status 26', 'Machine', '∷ 26 ∷ 27 ∷ 32 ∷ []', '∷ 26 ∷ 32 ∷ []'),
    (WRONG, 'value 4', 'Machine', 'ltb m.value (shape_of m).base', 'leb m.value (shape_of m).base'),
    (WRONG, 'increment 64', 'Machine', 'leb m.increment 63', 'leb m.increment 64'),
    (WRONG, 'increment 62', 'Machine', 'leb m.increment 63', 'leb m.increment 62'),
    (WRONG, 'y not asked', 'Machine', '    && in_range m.y\n', ''),
    (WRONG, 'fresh value 2', 'Machine', 'value = 3; write = true', 'value = 2; write = true'),
    (WRONG, 'fresh write off', 'Machine', 'value = 3; write = true', 'value = 3; write = false'),
    (WRONG, 'fresh latch on', 'Machine', 'latch = false; increment = 0; status = 0 }\n\n', 'latch = true; increment = 0; status = 0 }\n\n'),
    (WRONG, 'fresh increment 1', 'Machine', 'latch = false; increment = 0; status = 0 }\n\n', 'latch = false; increment = 1; status = 0 }\n\n'),
    (WRONG, 'fresh counter', 'Machine', 'fresh = record { counter = 0', 'fresh = record { counter = 2'),
    (WRONG, 'fresh mode 1', 'Machine', 'mode = none; value = 3', 'mode = 1; value = 3'),
    (WRONG, 'start keeps status', 'Machine', 'with_status (with_counter m a) 0', 'with_counter m a'),
    (WRONG, 'start keeps counter', 'Machine', 'with_status (with_counter m a) 0', 'with_status m 0'),
    (WRONG, 'start clears latch', 'Machine', 'with_status (with_counter m a) 0', 'with_latch (with_status (with_counter m a) 0) false'),
    (WRONG, 'pen 3', 'Image', 'ink_pen k old = k.value', 'ink_pen k old = 3'),
    # ---- Step
    (WRONG, 'graph moves other', 'Step', 'item_way g (GraphY y) v = way (Move (units (pos g))) (Set y)', 'item_way g (GraphY y) v = way Stay (Set y)'),
    (WRONG, 'graph X moves', 'Step', 'item_way g (GraphX x) v = way (Set x) (Move (units (pos g)))', 'item_way g (GraphX x) v = way (Set x) Stay'),
    (WRONG, 'abs Y moves', 'Step', 'way (Set x) (Set (coordinate v))', 'way (Set x) (Move (coordinate v))'),
    (WRONG, 'relative plots start', 'Step', 'item_pixels g m (RelativePoint dx dy) v = point_at m (moved m.x dx) (moved m.y dy)', 'item_pixels g m (RelativePoint dx dy) v = point_at m m.x m.y'),
    (WRONG, 'relative draws', 'Step', 'item_pixels g m (RelativePoint dx dy) v = point_at m (moved m.x dx) (moved m.y dy)', 'item_pixels g m (RelativePoint dx dy) v = vector_by m dx dy'),
    (WRONG, 'absolute plots start', 'Step', 'item_pixels g m (AbsolutePoint x) v = point_at m x (coordinate v)', 'item_pixels g m (AbsolutePoint x) v = point_at m m.x m.y'),
    (WRONG, 'long Y by X', 'Step', 'item_pixels g m (LongVector dx) v = vector_by m dx (long v)', 'item_pixels g m (LongVector dx) v = vector_by m dx dx'),
    (WRONG, 'cut, and drawn afresh', 'Step', '(inside (shape_of m) (item_pixels g m it v)) []', '(let p = pixel_at (shape_of m) m.x m.y in let cut = inside (shape_of m) (item_pixels g m it v) in inside (shape_of m) (vector (get_or cut 0 p) (get_or (reverse cut) 0 p))) []'),
    (WRONG, 'unlit stored', 'Step', 'pick (lit && m.write)', 'pick m.write'),
    (WRONG, 'stop 1 2', 'Step', '(pick m.latch 2 1)', '(pick m.latch 1 2)'),
    (WRONG, 'latch always', 'Step', '(with_latch m (pick b.loads b.latch m.latch))', '(with_latch m b.latch)'),
    (WRONG, 'value always', 'Step', 'with_mode m b.mode (pick b.sets b.value m.value)', 'with_mode m b.mode b.value'),
    (WRONG, 'increment always', 'Step', 'with_increment m (pick b.sets b.increment m.increment)', 'with_increment m b.increment'),
    (WRONG, 'write any channel', 'Step', 'with_write m (pick (eqb b.channel 0) b.write m.write)', 'with_write m b.write'),
    (WRONG, 'jump adds', 'Step', 'pick (jumps o) v (next m.counter)', 'pick (jumps o) (next (next m.counter)) (next m.counter)'),
    (WRONG, '27 x only', 'Step', '27 when (leaves m.x w.x || leaves m.y w.y) ∷ []', '27 when leaves m.x w.x ∷ []'),
    (WRONG, '27 y only', 'Step', '27 when (leaves m.x w.x || leaves m.y w.y) ∷ []', '27 when leaves m.y w.y ∷ []'),
    (WRONG, 'no 24', 'Step', '    ∷ first_refusals m.mode (word_in got)\n', ''),
    (WRONG, 'second fetch not asked', 'Step', '    ∷ only_if (has_second i) (fetch_refusals more)\n', ''),
    (WRONG, 'second fetch always', 'Step', 'only_if (has_second i) (fetch_refusals more)', 'fetch_refusals more'),
    (SAME, '26 before second fetch', 'Step', '    ∷ only_if (has_second i) (fetch_refusals more)\n    ∷ only_if (is_paired i) (second_refusals (word_in more))', '    ∷ only_if (is_paired i) (second_refusals (word_in more))\n    ∷ only_if (has_second i) (fetch_refusals more)'),
    (WRONG, '27 before 26', 'Step', '    ∷ only_if (is_paired i) (second_refusals (word_in more))\n    ∷ way_refusals m (way_of m.increment i (word_in more))', '    ∷ way_refusals m (way_of m.increment i (word_in more))\n    ∷ only_if (is_paired i) (second_refusals (word_in more))'),
    (SAME, '24 after second fetch', 'Step', '    ∷ first_refusals m.mode (word_in got)\n    ∷ only_if (has_second i) (fetch_refusals more)', '    ∷ only_if (has_second i) (fetch_refusals more)\n    ∷ first_refusals m.mode (word_in got)'),
    (WRONG, 'words of refused', 'Step', 'refuses m why = record { machine = with_status m why; steps = 0; words = 0', 'refuses m why = record { machine = with_status m why; steps = 0; words = 1'),
    (WRONG, 'words always 1', 'Step', 'words = words_of i; pixels', 'words = 1; pixels'),
    # ---- Run
    (WRONG, 'stores 1', 'Run', 'stores = length t.pixels', 'stores = t.steps'),
    (WRONG, 'words by steps', 'Run', 'words = t.words; stores', 'words = t.steps; stores'),
    (WRONG, 'run ignores status', 'Run', 'pick (eqb s.machine.status 0) rest s', 'rest'),
    (WRONG, 'counts not summed', 'Run', 'counts = summed s.counts (counted t)', 'counts = counted t'),
    # ---- Calls
    (WRONG, 'budget 999999', 'Calls', 'ltb 1000000 b', 'ltb 999999 b'),
    (WRONG, 'budget more', 'Calls', 'ltb 1000000 b', 'ltb 1000001 b'),
    (WRONG, '28 never', 'Calls', '28 when not (eqb m.status 0) ∷ []', '[]'),
    (WRONG, '11 not for run', 'Calls', 'joined (image_doors im ∷ file_doors', 'joined (file_doors'),
    (WRONG, '11 after file', 'Calls', 'image_doors im ∷ file_doors l.file ∷', 'file_doors l.file ∷ image_doors im ∷'),
    (WRONG, '17 before 16', 'Calls', 'machine_doors m ∷ budget_doors b', 'budget_doors b ∷ machine_doors m'),
    (WRONG, 'start refused sets', 'Calls', 'pick (eqb n 0) (started_at m a) m', 'started_at m a'),
    (WRONG, 'clear refused clears', 'Calls', 'left n (pick (eqb n 0) blank im)', 'left n blank'),
    (WRONG, 'clear nothing', 'Calls', 'left n (pick (eqb n 0) blank im)', 'left n im'),
    (WRONG, 'read 31 first', 'Calls', 'image_doors im ++ field_doors s p', 'field_doors s p ++ image_doors im'),
    (WRONG, 'read value 1', 'Calls', '(nat_abs p.y.0)) 0 }', '(nat_abs p.y.0)) 1 }'),
    (WRONG, 'turned counts', 'Calls', 'turned_away m im n = left (uncounted m n) im', 'turned_away m im n = left (uncounted (with_status m n) n) im'),
    # ---- Plot
    (WRONG, 'high byte first', 'Plot', '(low + 256 * high)', '(high + 256 * low)'),
    (WRONG, '19 odd not asked', 'Plot', '(not (eqb (length bytes % 2) 0) || ltb 65536 (length bytes))', 'ltb 65536 (length bytes)'),
    (WRONG, '19 long not asked', 'Plot', '(not (eqb (length bytes % 2) 0) || ltb 65536 (length bytes))', 'not (eqb (length bytes % 2) 0)'),
    (WRONG, '19 at 65536', 'Plot', 'ltb 65536 (length bytes)', 'ltb 65535 (length bytes)'),
    (WRONG, '19 after doors', 'Plot', 'input_doors bytes ++ run_doors (plain (words_in bytes)) fresh blank plot_budget', 'run_doors (plain (words_in bytes)) fresh blank plot_budget ++ input_doors bytes'),
    (WRONG, 'budget 100', 'Plot', 'plot_budget = 1000', 'plot_budget = 100'),
    (WRONG, 'line order', 'Plot', 'pos r.counts.words ∷ pos r.counts.stores', 'pos r.counts.stores ∷ pos r.counts.words'),
    (WRONG, 'line x y', 'Plot', 'r.machine.x.0 ∷ r.machine.y.0 ∷ []', 'r.machine.y.0 ∷ r.machine.x.0 ∷ []'),
    (WRONG, 'refused line', 'Plot', 'refused_line n = pos n ∷ pos 0', 'refused_line n = pos n ∷ pos 1'),
    # ---- Vector
    (WRONG, 'by one always up', 'Vector', 'by_one start (negsuc _) i = start -ℤ pos i', 'by_one start (negsuc _) i = start +ℤ pos i'),
    (WRONG, 'shorter', 'Vector', 'longer a b = max', 'longer a b = min'),
    (WRONG, 'n = 0 none', 'Vector', 'pick (eqb (longer a b) 0) (a ∷ [])', 'pick (eqb (longer a b) 0) []'),
    (WRONG, 'drawn from the end', 'Vector', 'numbered f (suc k) = numbered f k ++ (f k ∷ [])', 'numbered f (suc k) = f k ∷ numbered f k'),
    (WRONG, 'half down', 'Vector', '*ℤ difference +ℤ pos n) (2 * n)', '*ℤ difference +ℤ pos n -ℤ pos 1) (2 * n)'),
]

# What some of them name besides.
IMPORTS = {
    "Vector": [("◌*◌, max, List", "◌*◌, max, min, List")],
    "Calls": [("Machine.{started_at, machine_doors}", "Machine.{started_at, with_status, machine_doors}")],
    "Step": [("◌∷◌, ◌++◌, eqb, pos}", "◌∷◌, ◌++◌, get_or, reverse, eqb, pos}")],
}

# The with-functions of Machine: each keeps every field but its own. A step begins with status 0 and sets the counter last, so those two
# may be lost by some of them and nobody sees it.
CONSTANTS = {
    "counter": "0", "x": "units (pos 0)", "y": "units (pos 0)", "mode": "none", "value": "3",
    "write": "true", "latch": "false", "increment": "0", "status": "0",
}
UNSEEN = {
    ("with_position", "status"), ("with_write", "counter"), ("with_write", "status"), ("with_latch", "status"),
    ("with_increment", "counter"), ("with_increment", "status"),
}


def lost_fields():
    rules = []
    for line in (TOP / "crates/definition/specs/Machine.antt").read_text().split("\n"):
        head = re.match(r"(with\w+) m .* = record \{.*\}", line)
        for field, constant in CONSTANTS.items() if head else []:
            lost = re.sub(rf"\b{field} = m\.{field}\b", f"{field} = {constant}", line)
            if lost != line:
                kind = SAME if (head[1], field) in UNSEEN else WRONG
                rules.append((kind, f"{head[1]} loses {field}", "Machine", line, lost))
    return rules


def copy(where):
    """The definition without its proofs, in a repository of its own."""
    shutil.copytree(TOP / "crates/whole", where / "crates/whole", ignore=shutil.ignore_patterns("must-fail", "out"))
    shutil.copytree(TOP / "crates/definition", where / "crates/definition", ignore=shutil.ignore_patterns("must-fail", "out", "proofs"))
    (where / "crates/definition/proofs").mkdir()
    (where / "crates.txt").write_text("whole:\ndefinition: whole\n")
    subprocess.run(["git", "init", "-q", str(where)], check=True)


def text(name):
    """A file of examples."""
    crate = "worked" if name in WHOLE_IMAGES else "definition"
    return (TOP / "crates" / crate / "proofs" / f"{name}.antt").read_text()


def definition(where, names):
    """Whether the copy is proved with these files of examples, and what rt says of it."""
    proofs = where / "crates/definition/proofs"
    for name in EXAMPLES + WHOLE_IMAGES:
        path = proofs / f"{name}.antt"
        if name in names and not path.exists():
            path.write_text(text(name))
        elif name not in names:
            path.unlink(missing_ok=True)
    (proofs / "Lib.antt").write_text("".join(f"pub mod {name}\n" for name in names))
    ran = subprocess.run(["rt", "check"], cwd=proofs.parent, stdout=subprocess.PIPE, stderr=subprocess.STDOUT, text=True)
    return ran.returncode == 0 and re.search("^logic=proved ", ran.stdout, re.M) is not None, ran.stdout


def examples(name):
    """The examples of such a file: what is proved by computing it."""
    return re.findall(r"^(\S+) = (?:refl|rw)\b", text(name), re.M) if name in EXAMPLES + WHOLE_IMAGES else []


def refusal(where, rule):
    """What refuses the rule, and whether that is a worked example; or None where the rule is taken."""
    _, _, file, old, new = rule
    path = where / "crates/definition/specs" / f"{file}.antt"
    right = path.read_text()
    if right.count(old) != 1:
        return f"its text stands in {file}.antt {right.count(old)} times", False
    wrong = right.replace(old, new)
    for a, b in IMPORTS.get(file, []):
        if wrong.count(a) != 1:
            return f"the import '{a}' stands in {file}.antt {wrong.count(a)} times", False
        wrong = wrong.replace(a, b)
    path.write_text(wrong)
    proved, said = definition(where, EXAMPLES)
    if proved:
        proved, said = definition(where, EXAMPLES + WHOLE_IMAGES)
    path.write_text(right)
    if proved:
        return None
    first = re.search(r"(\w+)/(\w+)\.antt:\d+:\d+: error: (?:`(\S+)`)?", said)
    if not first:
        return "no error was printed", False
    folder, name, what = first.groups()
    return f"{folder}/{name}.antt, {what}", folder == "proofs" and what in examples(name)


def tried(rules):
    """The rules that behave other than they are marked, each with a sentence."""
    found = []
    with tempfile.TemporaryDirectory() as scratch:
        where = pathlib.Path(scratch)
        copy(where)
        # With no rule changed the copy must be proved; else a refusal says nothing.
        proved, said = definition(where, EXAMPLES + WHOLE_IMAGES)
        if not proved:
            sys.exit("the examples refuse the rules as they are, so that nothing is tried:\n" + said[-2000:])
        for rule in rules:
            got = refusal(where, rule)
            if rule[0] == WRONG and got is None:
                found.append(f"NOT REFUSED: {rule[1]}")
            elif rule[0] == SAME and got is not None:
                found.append(f"refused, though marked the same: {rule[1]} ({got[0]})")
            elif rule[0] == WRONG and not got[1]:
                found.append(f"refused, and not by an example: {rule[1]} ({got[0]})")
    return found


def arguments():
    parser = argparse.ArgumentParser(description="Wrong rules, one at a time, against the worked examples.")
    parser.add_argument("--some", type=int, metavar="N", help="try N of those that are marked wrong, and not all")
    parser.add_argument("--seed", type=int, default=0, metavar="S", help="which of them")
    return parser.parse_args()


def main():
    asked = arguments()
    rules = RULES + lost_fields()
    workers = min(2, os.cpu_count() or 1)
    if asked.some is not None:
        wrong = [rule for rule in rules if rule[0] == WRONG]
        if not 1 <= asked.some <= len(wrong):
            sys.exit(f"--some takes a number from 1 to {len(wrong)}")
        rules = random.Random(asked.seed).sample(wrong, asked.some)
        print("chosen: " + "; ".join(rule[1] for rule in rules), flush=True)
        workers = 1
    with ThreadPoolExecutor(workers) as pool:
        found = [line for lines in pool.map(tried, [rules[i::workers] for i in range(workers)]) for line in lines]
    print("\n".join(found + [f"{len(rules)} rules tried, {len(found)} to look at"]))
    sys.exit(1 if found else 0)


if __name__ == "__main__":
    main()
