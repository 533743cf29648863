"""A web page: `python3 -m bitcol web [FILE ..]`.

    main          the command line arguments, and the exit statuses
    server        the server on the loopback address, and how it reads requests and writes responses
    guard         which requests are answered at all
    routes        what each address returns
    requests      the parts of a request that routes use, and their limits
    workspace     the store that all windows share, and what was done to it
    answers       the answers that are kept for the windows
    page/         the parts of the page: HTML, CSS and JavaScript
"""
