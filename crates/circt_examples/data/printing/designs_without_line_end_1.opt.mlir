// builtin.module with a name and a dictionary
module {
}
