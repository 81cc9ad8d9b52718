setlocal commentstring={%s}
