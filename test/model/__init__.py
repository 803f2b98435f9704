"""A model of the language Sapper in plain Python, and random designs that the built program is compared with.

The model is written after the rules in docs/LANGUAGE.md, docs/FORMATS.md and docs/COMMANDS.md and shares nothing with the
program, so that the two can go wrong in different places. It takes the slow and simple way everywhere.

    tokens, tree, parser    the text of a design, and its read faults
    lattice                 levels, their order, joins and codes
    widths, names, shape    what makes a design well formed, and the first fault of one that isn't
    design                  entities, check sites, and what hangs on a command
    expressions, run        the labelled meaning: what a design does in a cycle
    streams, texts          stimuli, agreement at a level; rows, traces and reports
    random_lattices, random_expressions, random_designs, random_streams, edits, cases
                            what is drawn at random
    examples, compare       two scripts: the model on the repository's examples, the program beside the model

Beside it stands a model of modules and of dumps, after docs/MODULES.md and docs/FORMATS.md:

    modules                 the text of a module, and what it does in a cycle
    waves                   the dump of a run, the reading of a dump with its first fault, and its rows
    random_modules, wave_damages
                            modules, stimuli and damaged dumps drawn at random
    wave_table, compare_waves, converted
                            three scripts: the model on what was worked out by hand, the program beside the model, dumps through GTKWave's converters
    taints                  the names and numbers of tags that are added to a module
    random_taints           modules whose names leave room for tags, or don't
    taint_table, compare_taints
                            two scripts: the model of tags on what was worked out by hand, the program beside it
    brought_over, icarus    what flow/to_subset wrote, and rows of any module by Icarus Verilog
    verilog_table, random_verilog
                            modules of Verilog that are brought over or refused, and such drawn at random
    compare_verilog         a script: the script of the example beside Icarus Verilog
    measured, operators     the designs whose modules are measured, and the operators of a module beside those that Yosys leaves

And beside examples/certify, which asks a solver about modules:

    damages                 modules that are damaged in one place
    certified_table, certified
                            two scripts: modules damaged by hand, certified; those of designs drawn at random, damaged ones, and those of the examples

And of the time-sliced machine, after docs/COMMANDS.md and docs/FORMATS.md:

    programs                assembly, the instruction table, slices, and the texts of two programs
    random_programs         programs and streams of words drawn at random
    program_table, compare_programs
                            two scripts: the model on what was worked out by hand, the program beside the model

And of linked designs, after docs/FORMATS.md and docs/LANGUAGE.md:

    links                   a system file with its first fault, the composite run, its rows, and the ports of its module
    random_links            systems drawn at random, and damaged ones
    link_table, link_examples, compare_links
                            three scripts: the model on what was worked out by hand, on the examples, the program beside the model
"""
