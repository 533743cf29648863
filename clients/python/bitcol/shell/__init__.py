"""An interactive shell: `python3 -m bitcol [FILE ..]`.

    main          the command line arguments, and the exit statuses
    shell         what a line of input does
    commands      the commands that begin with a dot
    statements    splits lines into statements
    store         a session that stays usable after an interrupt
    console       where answers, remarks and errors are written
    render, plot  answers as tables, CSV, JSON, Markdown and lines, and as charts
    lengths       how long an answer will be, before its statement is sent
    units         how much the condition of a SELECT reads
    advisor       layouts that suit the SELECTs: advice measures, workload has the SELECTs, sizes the bytes
    importing     tables from files: csv_import, sqlite_import, names, types
    exporting     files from tables
    terminal      lines that are typed, with history and completion
"""
