test_that("NA and an empty text are no date", {
  skip_without_program()
  found <- read("GB", c(NA, "", "1640"))
  expect_equal(found$date, c("", "", "1640"))
  expect_equal(found$reason, c("no date", "no date", NA))
})

test_that("no dates give a frame without rows and with all columns", {
  skip_without_program()
  expect_equal(dim(read("GB", character(0))), c(0L, ncol(read("GB", "1640"))))
  expect_equal(names(read("GB", character(0))), names(read("GB", "1640")))
})

test_that("factors, numbers and days of R are read by their texts", {
  skip_without_program()
  found <- read(factor(c("SE", "GB")), factor(c("30 February 1712", "1640")), factor("Friday"))
  expect_equal(found$code, c("SE", "GB"))
  expect_equal(found$first, c("1712-03-11", "1640-04-04"))
  expect_equal(read("GB", 1640)$kind, "year")
  expect_equal(read("GB", as.Date("1640-05-03"))$first, "1640-05-13")
})

test_that("a text with quotes, backslashes and ends of lines is one row", {
  skip_without_program()
  found <- read("GB", c("\"\\\n", "\t{}\r\n", "1640"))
  expect_equal(found$kind, c("none", "none", "year"))
})

test_that("Latin-1 and UTF-8 are read alike", {
  skip_without_program()
  latin <- "11 f\xe9vrier 1731"
  Encoding(latin) <- "latin1"
  found <- read("GB", c(latin, "11 f\u00e9vrier 1731"))
  expect_equal(found$dual, rep("11 February 1731/2", 2))
  expect_equal(Encoding(found$date), c("UTF-8", "UTF-8"))
})

test_that("texts and names are read in the C locale too", {
  skip_without_program()
  journal <- tempfile()
  on.exit(unlink(journal))
  writeBin(charToRaw(paste0("{\"journal\":2}\n{\"op\":\"add_land\",\"code\":\"AA\",",
                            "\"name\":\"\u00d6rt\u00e9e\",\"calendar\":\"julian\",",
                            "\"style\":\"january\",\"rule\":\"julian\"}\n{\"op\":\"publish\"}\n")),
           journal)
  locale <- Sys.getlocale("LC_CTYPE")
  on.exit(Sys.setlocale("LC_CTYPE", locale), add = TRUE)
  Sys.setlocale("LC_CTYPE", "C")
  expect_equal(read("GB", "11 f\u00e9vrier 1731")$dual, "11 February 1731/2")
  expect_true(oldstyle_lands(journal)$name == "\u00d6rt\u00e9e")
})
