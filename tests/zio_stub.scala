// The signatures of ZIO 2 that exported schedules and examples/Retries.scala use, from its documents, for Scala 2.11.
// Nothing of it runs.
// ZIPPABLES is the tuples of 3 to 22 parts, which tests/test_scala.py writes.

package object zio {
  type Duration = java.time.Duration
  type Chunk[+A] = Vector[A]
  type UIO[+A] = ZIO[Any, Nothing, A]
  implicit def durationInt(n: Int): DurationSyntax = new DurationSyntax(n.toLong)
  implicit def durationLong(n: Long): DurationSyntax = new DurationSyntax(n)
  implicit class DurationOps(val it: Duration) extends AnyVal {
    def <(that: Duration): Boolean = ???
    def <=(that: Duration): Boolean = ???
    def >(that: Duration): Boolean = ???
    def >=(that: Duration): Boolean = ???
    def +(that: Duration): Duration = ???
    def *(factor: Double): Duration = ???
    def render: String = ???
  }
}

package zio {
  class DurationSyntax(n: Long) {
    def milli: Duration = ???
    def millis: Duration = ???
    def second: Duration = ???
    def seconds: Duration = ???
    def minute: Duration = ???
    def minutes: Duration = ???
  }

  trait Zippable[-A, -B] { type Out }

  trait LowestZippable {
    type Of[-A, -B, C] = Zippable[A, B] { type Out = C }
    implicit def two[A, B]: Of[A, B, (A, B)] = ???
  }

  trait LowZippable extends LowestZippable {
    ZIPPABLES
  }

  object Zippable extends LowZippable {
    implicit def leftUnit[A]: Of[Unit, A, A] = ???
  }

  trait ZIO[-R, +E, +A] {
    def repeat[R1 <: R, B](schedule: => Schedule[R1, A, B]): ZIO[R1, E, B]
    def retry[R1 <: R, S](policy: => Schedule[R1, E, S]): ZIO[R1, E, A]
  }

  object ZIO {
    def logInfo(message: => String): UIO[Unit] = ???
  }

  trait Schedule[-Env, -In, +Out] {
    def <*[Env1 <: Env, In1 <: In, Out2](that: Schedule[Env1, In1, Out2]): Schedule[Env1, In1, Out]
    def &&[Env1 <: Env, In1 <: In, Out2](that: Schedule[Env1, In1, Out2])(
      implicit zip: Zippable[Out, Out2]): Schedule[Env1, In1, zip.Out]
    def <*>[Env1 <: Env, In1 <: In, Out2](that: Schedule[Env1, In1, Out2])(
      implicit zip: Zippable[Out, Out2]): Schedule[Env1, In1, zip.Out]
    def zip[Env1 <: Env, In1 <: In, Out2](that: Schedule[Env1, In1, Out2])(
      implicit zip: Zippable[Out, Out2]): Schedule[Env1, In1, zip.Out]
    def both[Env1 <: Env, In1 <: In, Out2](that: Schedule[Env1, In1, Out2])(
      implicit zip: Zippable[Out, Out2]): Schedule[Env1, In1, zip.Out]
    def ||[Env1 <: Env, In1 <: In, Out2](that: Schedule[Env1, In1, Out2])(
      implicit zip: Zippable[Out, Out2]): Schedule[Env1, In1, zip.Out]
    def either[Env1 <: Env, In1 <: In, Out2](that: Schedule[Env1, In1, Out2])(
      implicit zip: Zippable[Out, Out2]): Schedule[Env1, In1, zip.Out]
    def andThenEither[Env1 <: Env, In1 <: In, Out2](
      that: Schedule[Env1, In1, Out2]): Schedule[Env1, In1, Either[Out, Out2]]
    def <||>[Env1 <: Env, In1 <: In, Out2](that: Schedule[Env1, In1, Out2]): Schedule[Env1, In1, Either[Out, Out2]]
    def andThen[Env1 <: Env, In1 <: In, Out2 >: Out](that: Schedule[Env1, In1, Out2]): Schedule[Env1, In1, Out2]
    def ++[Env1 <: Env, In1 <: In, Out2 >: Out](that: Schedule[Env1, In1, Out2]): Schedule[Env1, In1, Out2]
    def map[Out2](f: Out => Out2): Schedule[Env, In, Out2]
    def as[Out2](out: => Out2): Schedule[Env, In, Out2]
    def whileInput[In1 <: In](f: In1 => Boolean): Schedule[Env, In1, Out]
    def whileOutput(f: Out => Boolean): Schedule[Env, In, Out]
    def resetWhen(f: Out => Boolean): Schedule[Env, In, Out]
    def upTo(duration: Duration): Schedule[Env, In, Out]
    def tapOutput[Env1 <: Env](f: Out => ZIO[Env1, Nothing, Any]): Schedule[Env1, In, Out]
    def collectAll[Out1 >: Out]: Schedule[Env, In, Chunk[Out1]]
    def jittered: Schedule[Env, In, Out]
    def jittered(min: Double, max: Double): Schedule[Env, In, Out]
  }

  object Schedule {
    def forever: Schedule[Any, Any, Long] = ???
    def recurs(n: Long): Schedule[Any, Any, Long] = ???
    def spaced(duration: Duration): Schedule[Any, Any, Long] = ???
    def fixed(interval: Duration): Schedule[Any, Any, Long] = ???
    def windowed(interval: Duration): Schedule[Any, Any, Long] = ???
    def exponential(base: Duration, factor: Double = 2.0): Schedule[Any, Any, Duration] = ???
    def linear(base: Duration): Schedule[Any, Any, Duration] = ???
    def fibonacci(one: Duration): Schedule[Any, Any, Duration] = ???
    def fromDurations(duration: Duration, durations: Duration*): Schedule[Any, Any, Duration] = ???
    def elapsed: Schedule[Any, Any, Duration] = ???
    def identity[A]: Schedule[Any, A, A] = ???
  }
}
