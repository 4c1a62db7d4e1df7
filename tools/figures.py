#!/usr/bin/env python3
"""figures.py [--check]: write proofs/Figures.antt of each crate of definitions (crates/lighting_*): that the
definitions compute the bench figures, the traps and the worked lists, which stand in specs/Paper/Figures.antt
and Worked*.antt of the crate; and lighting_panel/proofs/Needed.antt, that each premise of §8's claim is
needed. Only the lists of names to unfold are made; the prover checks the equations. With --check nothing is
written, and a stale file is an error."""
import glob
import os
import re
import sys

LEVELS = 'of_bits Choice Level'.split()
OUTPUTS = (['bit_and', 'bit_or'] + LEVELS + 'Slots Value Relay Record Passing Light Advance Writing Operations'.split()
           + 'Commands Tenants Answers Rows Properties Fresh'.split())
ACTS = OUTPUTS + 'Requests Acting'.split()
READS = ['to_bits', 'round'] + ACTS
FRAMES = READS + 'Field Kinds Tags Frames'.split()
PANELS = FRAMES + 'Startable Rules Stations Copies Panel Judging Executing'.split()
LISTS = ['answers'] + PANELS
OLD_LISTS = LISTS + ['OldPanel']
CARRIED = 'Choice Field Rows TimeWithin Tags FadeTimes'.split()
PANEL = 'answers (fresh_panel (four_hours %d) 0) '

# of each crate: the name of a theorem, what is given and said, their module, what unfolds (modules with all
# their
# definitions, and names), and a comment
FIGURES = {
    'lighting_levels': [
        ('halves_by_hand', 'halves_given', 'halves_said', 'WorkedHalves', LEVELS, '§5: REALs halfway between two units'),
    ],
    'lighting_outputs': [
        ('figures', 'given', 'said', 'Figures', OUTPUTS, 'bench figures 1 to 8'),
        ('traps', 'traps_given', 'traps_said', 'Figures', OUTPUTS, 'the traps that one output shows'),
        ('burning_by_light', 'burning_given', 'burning_said', 'WorkedLight', OUTPUTS, '§2: what outputs have burned'),
        ('relay_by_hand', 'relay_given', 'relay_said', 'WorkedRelay', ACTS, '§3: Binary_Present_Value'),
        ('jumps_by_hand', 'jumps_given', 'jumps_said', 'WorkedJumps', OUTPUTS, '§4: movements under way at far jumps'),
        ('fresh_by_number', 'fresh_given', 'fresh_said', 'WorkedFresh', READS, 'every property of a fresh output'),
        ('fresh_is_empty', 'emptied_given', 'emptied_said', 'WorkedFresh', ACTS, 'a fresh slot is as emptying leaves it'),
        ('outside_by_number', 'outside_given', 'outside_said', 'WorkedOutside', ACTS, 'REALs outside their ranges'),
        ('ends_by_number', 'ends_given', 'ends_said', 'WorkedOutside', ACTS, 'REALs at the ends of their ranges'),
        ('side_by_side', 'side_by_side_given', 'side_by_side_said', 'WorkedTenants', READS,
         '§8: each property, read by a tenant and by a service station'),
        ('in_a_warning', 'warned_given', 'warned_said', 'WorkedTenants', READS, '§8: slot 6 in a warning'),
        ('rounded_down', 'rounded_given', 'rounded_said', 'WorkedTenants', READS, '§8: levels about whole percents'),
        ('marks_by_hand', 'marks_given', 'marks_said', 'WorkedTenants', READS, '§8: which stations are tenants'),
    ],
    'lighting_frames': [
        ('tags_written', 'commands_written', 'their_octets', 'WorkedTags', FRAMES, '§1: the octets of commands'),
        ('tags_refused', 'refused', 'refusals', 'WorkedTags', FRAMES, '§1: the refusals of bodies'),
    ],
    'lighting_panel': [
        ('worked', PANEL % 2 + 'frames', 'expected', 'Worked', LISTS, 'bench figures 9 and 10, and the traps of a list'),
        ('worked_in_tags', PANEL % 2 + 'frames_in_tags', 'answers_in_tags', 'WorkedTagLists', LISTS, '§1 in a list'),
        ('worked_jumps', PANEL % 2 + 'frames_of_jumps', 'answers_to_jumps', 'WorkedJumpLists', LISTS, '§4 in a list'),
        ('worked_halves', PANEL % 2 + 'frames_of_halves', 'answers_to_halves', 'WorkedHalfLists', LISTS, '§5 in a list'),
        ('worked_order', PANEL % 1 + 'frames_of_order', 'answers_in_order', 'WorkedOrder', LISTS, 'wrong in two places at once'),
        ('rules_by_number', 'rules_given', 'rules_said', 'WorkedRules', PANELS, 'refusal 1: the record rules'),
        ('ends_by_number', 'ends_given', 'ends_said', 'WorkedSets', PANELS, '§6: which sets may be started'),
        ('kept_by_number', 'kept_given', 'kept_said', 'WorkedSets', PANELS, '§6: which sets may be kept'),
        ('sizes_by_number', 'sizes_given', 'sizes_said', 'WorkedSets', PANELS, '§6: 17 before 1, exactly that many records'),
        ('frames_at_sets', 'frames_given', 'frames_said', 'WorkedSets', LISTS, '§6: refusals 4 and 12 at some sets'),
        ('fresh_fades', 'fresh_fades_given', 'fresh_fades_said', 'WorkedSets', LISTS, '§6: a fresh Fade_Time'),
        ('longest_ramp', 'ramp_given', 'ramp_said', 'WorkedSets', LISTS, '§6: a ramp that is longer than every fade'),
        ('fades_at_the_top', 'top_given', 'top_said', 'WorkedFourHours', OLD_LISTS, '§7: the longest fade, today and before'),
        ('longer_needed', 'longer_given', 'longer_said', 'WorkedFourHours', OLD_LISTS,
         '§7: lists with a longer fade time differ'),
        ('longer_unasked', 'unasked_given', 'unasked_said', 'WorkedFourHours', OLD_LISTS,
         '§7: longer fade times that neither panel takes'),
        ('longer_carried', 'carried_given', 'carried_said', 'WorkedFourHours', CARRIED,
         '§7: which frames carry a longer fade time'),
        ('worked_tenants', 'tenant_given', 'tenant_said', 'WorkedTenantLists', LISTS, '§8 in a list'),
        ('two_panels', 'two_given', 'two_said', 'WorkedSecrecy', PANELS,
         '§8: two panels for each premise of the claim of secrecy'),
        ('free_to_differ', 'free_given', 'free_said', 'WorkedSecrecy', PANELS,
         '§8: two panels that a tenant cannot tell apart'),
    ],
}
# names that unfold, and their module: what is no definition of ours, and lists
NAMES = {'bit_and': 'lib.Bits', 'bit_or': 'lib.Bits', 'of_bits': 'lib.Ieee', 'to_bits': 'lib.Ieee', 'round': 'lib.Ieee', 'answers': 'Demand'}


def path_of(module):
    return glob.glob('crates/lighting_*/specs/*/%s.antt' % module)[0]


def library(module, crate):
    _, owner, _, folder, _ = path_of(module).split('/')
    return 'Rattle.%s.specs.%s.%s' % (owner, folder, module)


def definitions(module):
    return re.findall(r'^unfoldable pub (\S+) :', open(path_of(module)).read(), re.M)


def imports(modules, crate):
    lines = []
    for module in dict.fromkeys(NAMES[one] for one in modules if one in NAMES):
        names = ', '.join(one for one in modules if NAMES.get(one) == module)
        lines.append('use %s.{%s}' % (module if '.' in module else library(module, crate), names))
    for module in modules:
        if module not in NAMES and definitions(module):
            lines.append('use %s.{%s}' % (library(module, crate), ', '.join(definitions(module))))
    return lines


def opened(unfolds):
    return ' '.join(definition for one in unfolds for definition in ([one] if one in NAMES else definitions(one)))


def figures_of(crate, figures):
    lines = ['-- Made by tools/figures.py: figures, traps and worked lists of this layer, computed by the definitions.', 'use mathlib.Core.Path.{◌≡◌, refl}']
    unfolded = list(dict.fromkeys(one for figure in figures for one in figure[4]))
    lines += imports(unfolded, crate)
    if any('four_hours' in figure[1] for figure in figures):
        lines.append('use %s.{four_hours}' % library('Parameters', crate))
    for worked in dict.fromkeys(figure[3] for figure in figures):
        names = [name.split()[-1] for figure in figures if figure[3] == worked for name in figure[1:3]]
        lines.append('use %s.{%s}' % (library(worked, crate), ', '.join(names)))
    for name, given, said, _, unfolds, comment in figures:
        lines += ['', '-- ' + comment, 'pub %s : %s ≡ %s' % (name, given, said)]
        lines += ['unfolding ' + opened(unfolds), '%s = refl' % name]
    return '\n'.join(lines) + '\n'


# §8: for each premise of the claim of secrecy two panels that are alike in all the others, in the order of
# `premises`
PREMISES = 'neither_meets_one station_counts output_counts its_mark panel_times its_record'.split()
LEARNT = ('the_settings the_relay_settings the_slots the_last_command the_process the_binary_value the_burning_time'.split()
          + ['the_present_value', 'the_progress_value'])


def needed():
    crate = 'lighting_panel'
    # the premises, and the proof that computes of two panels which are alike in each
    proofs = {name: 'refl' for name in PREMISES}
    proofs.update({'(learnt %s)' % what: 'λ timely. refl' for what in LEARNT})
    proofs.update({'neither_meets_one': '(refl, refl)', 'its_mark': '(refl, refl)'})
    proofs['(learnt the_relay_settings)'] = 'λ timely. (refl, refl, refl)'
    lines = ['-- Made by tools/figures.py: §8, each premise of the claim of secrecy is needed. For each of them two panels',
             '-- (WorkedSecrecy.antt) that are alike in all the others, and a string of kind 05 that they answer',
             '-- differently.', 'use mathlib.Core.Path.{◌≡◌, refl}', 'use Prim.Native.Nat.{ℕ, ◌<◌}',
             'use native.Mathlib.Omega.{arith}', 'use %s.{Octets}' % library('Frames', crate)]
    lines += imports(PANELS, crate)
    lines.append('use %s.{%s}' % (library('Learnt', crate), ', '.join(LEARNT)))
    lines.append('use %s.{Premise, %s, learnt, Alike, Needed}' % (library('Secrecy', crate), ', '.join(PREMISES)))
    lines.append('use %s.{the_one, the_other, the_string, quiet, busy}' % library('WorkedSecrecy', crate))
    lines.append('use %s.{asked}' % library('Worked', crate))
    lines.append('use Rattle.lighting_panel.proofs.Secrecy.{secret, apart_answers}')
    lines += ['', 'pub needed : (k : Premise) → Needed k', 'unfolding ' + opened(PANELS)]
    for spared in proofs:
        alike = 'tt'
        for name in reversed(proofs):
            alike = '(%s, %s)' % ('tt' if name == spared else proofs[name], alike)
        lines += ['needed %s =' % spared, '    record {']
        lines += ['      %s = %s %s;' % (field, value, spared)
                  for field, value in (('one', 'the_one'), ('other', 'the_other'), ('string', 'the_string'))]
        lines += ['      octets = refl;', '      kind = refl;', '      alike = %s;' % alike]
        lines += ['      differ = apart_answers _ _ refl;', '    }']
    string = '(asked 1 1 10000 0 n)'
    lines += ['', '-- two panels that are alike in all of them and differ in much else',
              'alike : (n : ℕ) (k : Premise) → Alike k quiet busy ' + string, 'unfolding ' + opened(PANELS)]
    lines += ['alike n %s = %s' % each for each in proofs.items()]
    lines += ['', '-- so a tenant cannot tell them apart, whatever it reads',
              'pub untold : (n : ℕ) → n < 256',
              '    → (frame_step quiet %s).answer ≡ (frame_step busy %s).answer' % (string, string),
              'untold n below = secret quiet busy %s bytes (unfold byte_at in refl) (alike n)' % string,
              '  where', '    bytes : Octets ' + string,
              '    bytes = unfold octets in ' + '(omega arith, ' * 13 + '(below, tt)' + ')' * 13]
    return '\n'.join(lines) + '\n'


MADE = {'crates/%s/proofs/Figures.antt' % crate: figures_of(crate, figures) for crate, figures in FIGURES.items()}
MADE['crates/lighting_panel/proofs/Needed.antt'] = needed()
for out, text in MADE.items():
    if '--check' in sys.argv:
        # the layout is rt fmt's
        if not os.path.exists(out) or open(out).read().split() != text.split():
            sys.exit('figures.py: %s is stale: run tools/figures.py' % out)
    else:
        open(out, 'w').write(text)
