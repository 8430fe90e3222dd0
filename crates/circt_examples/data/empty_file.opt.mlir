// a text without modules
module {
}
