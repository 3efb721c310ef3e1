"""An independent reading of the rules, in plain Python.

It was written from the rules as docs/MACHINE.md, CALLS.md, FORMATS.md and LIMITS.md tell them, and not from the code or from its
definitions: so where the two differ, one of them has misread a rule. `bin/make-cases` makes by it what the test cases expect.

    words       words of instructions, and what an instruction does with registers
    assembler   texts of programs
    toml        TOML documents
    scenarios   scenarios, and by which rule one is refused
    world       objects, pages, what leads where, who is held
    calls       what each stage of a call checks, when it is ready, and what it does
    servers     native servers
    moves       who can move, and what a move does
    jobs        checkpoints and restores: what they come to
    images      images: reading, with offset and reason, and writing
    runs        the first world of a scenario, traces, plays and runs
    texts       what the commands write, and lines of faults
    commands    whole commands: words, source and files in, status, line, output and files out
    cases       files of cases
    seeds       cases at random, of many kinds; any_text, any_toml, any_scenario, any_image and any_program make what they ask
    made        the files of cases that are made by this reading; families makes the long scenarios that they name
    against     a program that is held against it
"""
