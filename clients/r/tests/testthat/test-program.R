in_folder <- function(code) {
  folder <- tempfile("a folder's ")
  dir.create(folder)
  before <- setwd(folder)
  on.exit({
    setwd(before)
    unlink(folder, recursive = TRUE)
  })
  force(code)
}

test_that("journals of all names are read", {
  skip_without_program()
  named <- c("--help", "-", "a b", "it's", "$HOME", "x;y", "\\")
  in_folder(for (path in c(named, if (l10n_info()[["UTF-8"]]) "\u00f6")) {
    file.copy(samples, path)
    expect_equal(oldstyle_lands(path)$code[1], "RM", info = path)
    expect_equal(oldstyle_lands(file.path(getwd(), path))$code[1], "RM", info = path)
  })
})

test_that("a program of any path is found, and no other is taken", {
  skip_without_program()
  at <- Sys.which(Sys.getenv("OLDSTYLE", "oldstyle"))
  in_folder({
    file.symlink(normalizePath(at), "it's old style")
    program <- file.path(getwd(), "it's old style")
    expect_equal(oldstyle_lands(samples, program = program)$code[1], "RM")
  })
  expect_error(oldstyle_lands(samples, program = "no-such-oldstyle"), "or name it by program =")
  expect_error(oldstyle_lands(samples, program = "true"), "status 0 after 0 of 1 replies")
})

test_that("the program of OLDSTYLE is asked", {
  before <- Sys.getenv("OLDSTYLE", NA)
  on.exit(if (is.na(before)) Sys.unsetenv("OLDSTYLE") else Sys.setenv(OLDSTYLE = before))
  Sys.setenv(OLDSTYLE = "no-such-oldstyle")
  expect_error(read("GB", "1640"), "no-such-oldstyle is not a program")
})

test_that("a journal that is missing or refused is an error that says what to do", {
  skip_without_program()
  expect_error(oldstyle_read("none.journal", "GB", "1640"), "none.journal: no such file")
  in_folder({
    writeLines(c("{\"journal\":2}", "nothing"), "wrong.journal")
    expect_error(oldstyle_read("wrong.journal", "GB", "1640"), "line 2.*wrong.journal: correct")
  })
})

test_that("no file is left", {
  skip_without_program()
  before <- list.files(tempdir())
  read("GB", "1640")
  expect_equal(list.files(tempdir()), before)
})
