"""What stands beside the program: words of `./urweb` for those who write applications. Each word is a module with `main(words) -> status`."""
