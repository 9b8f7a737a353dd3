test_that("a date means the days that its place says", {
  skip_without_program()
  found <- read("GB", c("11 Feb. 1731/32", "March 1731", "5 September 1752", "n.d."))
  expect_equal(found$date, c("11 Feb. 1731/32", "March 1731", "5 September 1752", "n.d."))
  expect_equal(found$kind, c("day", "month", "day", "none"))
  expect_equal(found$first, c("1732-02-22", "1731-04-05", NA, NA))
  expect_equal(found$last, c("1732-02-22", "1732-04-04", NA, NA))
  expect_equal(found$runs, c(1L, 2L, 0L, 0L))
  expect_equal(found$dual, c("11 February 1731/2", NA, NA, NA))
  expect_equal(found$found_weekday, c("Friday", NA, NA, NA))
  expect_equal(found$day, c(632287L, NA, NA, NA))
  expect_equal(found$jdn, c(2353712L, NA, NA, NA))
  expect_equal(found$reason, c(NA, NA, "skipped", "no date"))
  expect_equal(found$edition, rep(5L, 4))
  expect_equal(as.Date(found$first[1]), as.Date("1732-02-22"))
})

test_that("the column answer has all runs of days", {
  skip_without_program()
  runs <- read("GB", "March 1731")$answer[[1]]$runs
  days <- vapply(runs, function(run) c(run$first$gregorian, run$last$gregorian), c("", ""))
  expect_equal(days, cbind(c("1731-04-05", "1731-04-11"), c("1732-03-12", "1732-04-04")))
})

test_that("the open end of a bound is NA", {
  skip_without_program()
  found <- read("GB", c("before 25 March 1640", "after 25 March 1640"))
  expect_equal(found$first, c(NA, "1640-04-05"))
  expect_equal(found$last, c("1640-04-03", NA))
  expect_equal(found$day, c(NA_integer_, NA_integer_))
})

test_that("a weekday fits, differs or is not given", {
  skip_without_program()
  found <- read("GB", rep("11 Feb. 1731/32", 4), c("Friday", "Monday", "", NA))
  expect_equal(found$weekday, c("Friday", "Monday", NA, NA))
  expect_equal(found$weekday_fits, c(TRUE, FALSE, NA, NA))
})

test_that("a date says how sure it is, and by which calendar", {
  skip_without_program()
  found <- read("GB", c("c. May 1640", "[1640]", "1640?", "11 February 1731 N.S."))
  expect_equal(found$approximate, c(TRUE, FALSE, FALSE, FALSE))
  expect_equal(found$supplied, c(FALSE, TRUE, FALSE, FALSE))
  expect_equal(found$uncertain, c(FALSE, FALSE, TRUE, FALSE))
  expect_equal(found$other_calendar, c(FALSE, FALSE, FALSE, TRUE))
})

test_that("a row that is refused has the name of its fault, and the others their answers", {
  skip_without_program()
  found <- read(c("FR", "GB", NA, "gb"), rep("1640", 4))
  expect_equal(found$fault, c("UnknownLand", NA, "BadCode", "BadCode"))
  expect_equal(found$kind, c(NA, "year", NA, NA))
})

test_that("the territories come in the order of the register", {
  skip_without_program()
  found <- oldstyle_lands(samples)
  expect_equal(found$code, c("RM", "GB", "SE", "RU", "DE"))
  expect_equal(found$name[2], "Great Britain")
})

test_that("codes and weekdays are as many as dates, or one for all", {
  expect_error(read(c("GB", "GB"), "1640"), "as long as date")
  expect_error(read("GB", c("1640", "1641", "1642"), c("Friday", "Monday")), "as long as date")
})
