samples <- system.file("extdata", "samples.journal", package = "oldstyle")

skip_without_program <- function() {
  is_there <- nzchar(Sys.which(Sys.getenv("OLDSTYLE", "oldstyle")))
  skip_if_not(is_there, "the program oldstyle is not there")
}

# The answers of the samples.
read <- function(...) oldstyle_read(samples, ...)
