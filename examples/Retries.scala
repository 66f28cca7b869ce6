import zio._

/** Ten schedules in the styles of ZIO's documentation. */
object Retries {
  // Chains of methods, and the defaults.
  val fiveTimes   = Schedule.recurs(5)
  val everySecond = Schedule.spaced(1.second) && fiveTimes
  val backOff     = Schedule.exponential(100.millis)

  val fetch =
    backOff.jittered &&
      Schedule.recurs(5)

  val capped = (Schedule.exponential(500.millis) || Schedule.spaced(4.seconds)) && Schedule.recurs(10)

  val slower = Schedule.recurs(2) ++ Schedule.spaced(100.millis)
    .whileOutput(_ < 3)

  /* upTo looks at the clock only when an attempt ends. */
  val limited: Schedule[Any, Any, Long] =
    Schedule
      .spaced(400.millis)
      .upTo(2.seconds)

  val fibonacci = (Schedule.fibonacci(100.millis) <* Schedule.recurs(4)).map { delay => delay.toMillis }

  def passing = everySecond.whileInput[Int] { code => code == 429 || code >= 500 }

  def poll(status: UIO[Int]) =
    status.repeat {
      Schedule.fromDurations(1.second, 5.seconds, 30.seconds)
        .tapOutput(delay => ZIO.logInfo(s"waited ${delay.render}"))
    }
}
