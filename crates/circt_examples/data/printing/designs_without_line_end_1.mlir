// builtin.module with a name and a dictionary
builtin.module @W attributes {a = 1} {}