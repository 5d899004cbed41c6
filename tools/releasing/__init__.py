"""What tools/release makes: the files of an installation, and the packages of them."""
