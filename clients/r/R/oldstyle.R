# No date is computed here: the program reads the texts, and answers in lines of JSON. A function
# whose name begins with a point is internal; the pages of man/ describe the others.

# What each date means: a data frame with a row for each date, in order.
oldstyle_read <- function(journal, code, date, weekday = NA, program = NULL) {
  count <- length(date)
  if (!length(code) %in% c(1, count) || !length(weekday) %in% c(1, count)) {
    stop("code and weekday are as long as date, or one for all", call. = FALSE)
  }
  text <- function(given) enc2utf8(as.character(rep_len(given, count)))
  questions <- data.frame(code = text(code), date = text(date), weekday = text(weekday),
                      stringsAsFactors = FALSE)
  questions$code[is.na(questions$code)] <- ""
  questions$date[is.na(questions$date)] <- ""
  questions$weekday[!nzchar(questions$weekday)] <- NA
  if (count == 0) {
    return(cbind(questions, .oldstyle_columns(list())))
  }
  requests <- data.frame(op = "written", reader = 1L, questions, stringsAsFactors = FALSE)
  cbind(questions, .oldstyle_columns(.oldstyle_ask(journal, requests, program)))
}

# The territories of a journal: a data frame of code and name.
oldstyle_lands <- function(journal, program = NULL) {
  reply <- .oldstyle_ask(journal, data.frame(op = "lands", reader = 1L), program)[[1]]
  field <- function(name) vapply(reply$answer$lands, function(land) land[[name]], "")
  data.frame(code = field("code"), name = field("name"), stringsAsFactors = FALSE)
}

# The replies to requests, a row each, as lists. The journal is only read.
.oldstyle_ask <- function(journal, requests, program = NULL) {
  program <- .oldstyle_program(program)
  files <- tempfile(c("requests", "replies", "errors"))
  on.exit(unlink(files))
  sent <- file(files[1], "wb")
  jsonlite::stream_out(requests, sent, verbose = FALSE)
  close(sent)
  path <- path.expand(journal)
  path <- if (startsWith(path, "-")) file.path(".", path) else path
  words <- c("serve", "--read-only", "--journal", shQuote(path))
  status <- system2(program, words, stdin = files[1], stdout = files[2], stderr = files[3])
  replies <- readLines(files[2], encoding = "UTF-8", warn = FALSE)
  if (status != 0 || length(replies) != nrow(requests)) {
    stop(program, " ended with status ", status, " after ", length(replies), " of ", nrow(requests),
         " replies: ", .oldstyle_why(journal, readLines(files[3], warn = FALSE)), call. = FALSE)
  }
  lapply(replies, jsonlite::fromJSON, simplifyVector = FALSE)
}

# The program: the one that is named, otherwise that of the environment variable OLDSTYLE, otherwise
# the one on the PATH.
.oldstyle_program <- function(program = NULL) {
  path <- if (!is.null(program)) program else Sys.getenv("OLDSTYLE", "oldstyle")
  found <- Sys.which(path)
  if (!nzchar(found)) {
    stop(path, " is not a program: install oldstyle, or name it by program = or in the ",
         "environment variable OLDSTYLE", call. = FALSE)
  }
  unname(found)
}

# Why the program ended over which journal, and the next step.
.oldstyle_why <- function(journal, errors) {
  is_refused <- any(grepl("journal line|read fault", errors))
  step <- if (!file.exists(journal)) "no such file: name a journal" else
    if (is_refused) "correct this journal, or name another"
  paste(c(errors, if (!is.null(step)) c(journal, step)), collapse = ": ")
}

# The columns that replies make.
.oldstyle_columns <- function(replies) {
  text <- function(value) if (is.null(value)) NA_character_ else as.character(value)
  number <- function(value) if (is.null(value)) NA_integer_ else as.integer(value)
  truth <- function(value) if (is.null(value)) NA else value
  answers <- lapply(replies, `[[`, "answer")
  ends <- lapply(answers, .oldstyle_ends)
  of_end <- function(end, name) vapply(ends, function(day) text(day[[end]][[name]]), "")
  only <- lapply(ends, `[[`, "only")
  columns <- data.frame(
    kind = vapply(answers, function(answer) text(answer$kind), ""),
    first = of_end("first", "gregorian"), last = of_end("last", "gregorian"),
    runs = vapply(answers, function(answer) length(answer$runs), 0L),
    day = vapply(only, function(day) number(day$day), 0L),
    jdn = vapply(only, function(day) number(day$jdn), 0L),
    dual = of_end("only", "dual"), found_weekday = of_end("only", "weekday"),
    weekday_fits = vapply(answers, function(answer) truth(answer$weekday), NA),
    stringsAsFactors = FALSE)
  for (name in c("approximate", "supplied", "uncertain", "other_calendar")) {
    columns[[name]] <- vapply(answers, function(answer) truth(answer[[name]]), NA)
  }
  columns$reason <- vapply(answers, function(answer) text(answer$reason), "")
  columns$fault <- vapply(replies, function(reply) text(reply$name), "")
  columns$edition <- vapply(replies, function(reply) number(reply$edition), 0L)
  columns$answer <- I(answers)
  columns
}

# The first and the last day of an answer, NULL at an open end, and the only one if one is meant.
.oldstyle_ends <- function(answer) {
  runs <- answer$runs
  if (length(runs) == 0) {
    return(list())
  }
  first <- runs[[1]]$first
  last <- runs[[length(runs)]]$last
  is_open <- answer$kind %in% c("before", "after")
  list(first = if (answer$kind != "before") first, last = if (answer$kind != "after") last,
       only = if (!is_open && first$day == last$day) first)
}
