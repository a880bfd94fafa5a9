-- | The texts of blocks, worked out from docs/LANGUAGE.md, and their limits, at the last value and the first beyond it.
module Texts (texts) where

import Check
import Control.Monad (forM_, replicateM_, void)
import qualified Data.ByteString.Char8 as Bytes
import Stmdesk
import Stmdesk.Program (runOnce)

a, b, x :: Exp (Var Int)
a = variable "a" 0
b = variable "b" 0
x = variable "x" 0

slot :: Exp (Var (Var Int))
slot = variable "slot" x

flag :: Exp (Var Bool)
flag = variable "flag" false

texts :: FilePath -> [Test]
texts program' =
  [ test "statements" $ do
      render (pure ()) `is` Right "return ()"
      render (writeVar x 5) `is` Right "writeTVar x 5"
      render (writeVar x (-5) >> writeVar x (2 - 5)) `is` Right "do { writeTVar x (-5); writeTVar x (2 - 5) }"
      render (void (readVar x)) `is` Right "do { readTVar x; return () }"
      render (readVar x) `is` Right "readTVar x"
      render (readVar slot >>= readVar) `is` Right "do { a <- readTVar slot; readTVar a }"
      render (newVar x) `is` Right "newTVar x"
      render (newVar true >>= \v -> writeVar v false) `is` Right "do { a <- newTVar True; writeTVar a False }"
      render (let' (1 + 2 :: Exp Int)) `is` Right "return (1 + 2)"
      render (let' (1 + 2 :: Exp Int) >> pure ()) `is` Right "do { let a = 1 + 2; return () }"
      render (when' true (writeVar x 1) >> writeVar x 2)
        `is` Right "do { if True then writeTVar x 1 else return (); writeTVar x 2 }"
      render (unless' true (writeVar x 1)) `is` Right "if True then return () else writeTVar x 1"
      render (if' false (readVar x) (pure 3) >>= \n -> pure (n * n))
        `is` Right "do { a <- if False then readTVar x else return 3; return (a * a) }"
      render (catchInt (readVar x >>= throwInt) (writeVar x)) `is` Right "catch (do { a <- readTVar x; throw a }) b (writeTVar x b)"
      render (modifyVar x (+ 1) `orElse` modifyVar x (subtract 1))
        `is` Right "orElse (do { a <- readTVar x; writeTVar x (a + 1) }) (do { b <- readTVar x; writeTVar x (b - 1) })"
  , test "expressions" $ do
      let text e = render (pure (e :: Exp Int))
          truth e = render (pure (e :: Exp Bool))
      text (1 - 2 - 3) `is` Right "return (1 - 2 - 3)"
      text (1 - (2 - 3)) `is` Right "return (1 - (2 - 3))"
      text ((1 + 2) * 3) `is` Right "return ((1 + 2) * 3)"
      text (1 + 2 * 3) `is` Right "return (1 + 2 * 3)"
      text (2 * (3 * 4)) `is` Right "return (2 * (3 * 4))"
      text (negate (-4)) `is` Right "return 4"
      text (negate (1 + 2)) `is` Right "return (0 - (1 + 2))"
      truth (1 <. 2 &&. 3 <=. 4 ||. true) `is` Right "return (1 < 2 && 3 <= 4 || True)"
      truth ((true ||. false) &&. (false ||. true)) `is` Right "return ((True || False) && (False || True))"
      truth (true &&. true &&. true) `is` Right "return (True && True && True)"
      truth ((true &&. true) &&. true) `is` Right "return ((True && True) && True)"
      truth ((1 ==. (2 :: Exp Int)) ==. true) `is` Right "return ((1 == 2) == True)"
      truth (1 >. 2) `is` Right "return (2 < 1)"
      truth (1 >=. 2) `is` Right "return (2 <= 1)"
      truth (x /=. x) `is` Right "return ((x == x) == False)"
      render (writeVar flag (not' true)) `is` Right "writeTVar flag (True == False)"
  , test "names" $ do
      -- a local never has the name of a variable of the block
      render (do { n <- readVar a; m <- readVar b; writeVar a (n + m) })
        `is` Right "do { c <- readTVar a; d <- readTVar b; writeTVar a (c + d) }"
      -- a local of an inner block has another name than one outside
      render (do { n <- readVar x; m <- if' true (readVar x >>= \k -> pure (k + n)) (pure n); pure (n + m) })
        `is` Right "do { a <- readTVar x; b <- if True then do { c <- readTVar x; return (c + a) } else return a; return (a + b) }"
      let many = replicateM_ 30 (readVar x >>= writeVar x)
      fmap (elem "a1" . words) (render many) `is` Right True
  , test "what never runs" $ do
      render (retry >> writeVar x 1) `is` Right "retry"
      render (throwInt 1 >>= \n -> writeVar x n) `is` Right "throw 1"
      render (do { n <- if' true retry (throwInt 2); writeVar x n }) `is` Right "if True then retry else throw 2"
      render (do { n <- retry `orElse` retry; writeVar x n }) `is` Right "orElse (retry) (retry)"
      render (do { n <- catchInt retry throwInt; writeVar x n }) `is` Right "catch (retry) a (throw a)"
      render (do { n <- if' true retry (pure 2); writeVar x n }) `is` Right "do { a <- if True then retry else return 2; writeTVar x a }"
  , test "balanced alternatives" $ do
      let one n = if n == (0 :: Int) then pure () else retry
      render (foldr1 orElse (map one [1, 2, 0])) `is` Right "orElse (retry) (orElse (retry) (return ()))"
      render (foldl1 orElse (map one [1, 2, 0])) `is` Right "orElse (retry) (orElse (retry) (return ()))"
      let text = either (error . show) id (render (foldr1 orElse (replicate 500 (readVar x))))
      answers [text] >>= (`are` ["commits writes none news none result 0"])
  , test "declarations" $ do
      names' ["x", "x'", "aB_9", replicate 32 'y'] `is` replicate 4 True
      names' ["", "X", "_x", "9", "x y", "x-", "\233", "do", "catch", replicate 33 'y'] `is` replicate 10 False
      render (writeVar (variable "x" true) true >> writeVar x 1) `is` Left (TwoOfName "x")
      render (readVar (variable "x" 1) >> readVar x) `is` Left (TwoOfName "x")
      render (readVar (variable "y" (1 + 1))) `is` Left (NoLiteral "y")
  , test "numbers" $ do
      render (pure 9223372036854775807 :: Block (Exp Int)) `is` Right "return 9223372036854775807"
      render (pure (-9223372036854775808) :: Block (Exp Int)) `is` Right "return (-9223372036854775808)"
      render (pure 9223372036854775808 :: Block (Exp Int)) `is` Left (NumberOutOfRange 9223372036854775808)
      render (pure (-9223372036854775809) :: Block (Exp Int)) `is` Left (NumberOutOfRange (-9223372036854775809))
      answers ["return 9223372036854775807", "return (-9223372036854775808)"]
        >>= (`are` ["commits writes none news none result " ++ n | n <- ["9223372036854775807", "-9223372036854775808"]])
  , test "depth" $ do
      let nested n = iterate (`catchInt` \_ -> retry) (retry :: Block ()) !! n
          written n = concat (replicate n "catch (") ++ "retry" ++ concat (replicate n ") a (retry)")
          right n = iterate (1 -) (1 :: Exp Int) !! n
      fmap (const ()) (render (nested 32)) `is` Right ()
      render (nested 33) `is` Left TooDeep
      answers [written 32, written 33] >>= (`are` ["blocks", "refused TooDeep"])
      fmap (const ()) (render (pure (right 64))) `is` Right ()
      render (pure (right 65)) `is` Left TooDeep
      answers [either show id (render (pure (right 64)))] >>= (`are` ["commits writes none news none result 1"])
      answers ["return " ++ concat (replicate n "(1 - ") ++ "1" ++ replicate n ')' | n <- [64, 65]]
        >>= (`are` ["commits writes none news none result 1", "refused TooDeep"])
  , test "tokens" $ do
      let block written' news' = replicateM_ written' (writeVar x 1) >> replicateM_ (news' - 1) (newVar true) >> newVar true
          written n m = concat (["do { "] ++ replicate n "writeTVar x 1; " ++ replicate (m - 1) "newTVar True; " ++ ["newTVar True }"])
      render (block 1022 2) `is` Right (written 1022 2)  -- 3 + 4 * 1022 + 3 * 2 - 1 = 4096
      render (block 1023 1) `is` Left TooLarge  -- 4097
      shown <- answers [written 1022 2, written 1023 1]
      map (takeWhile (/= ' ')) shown `is` ["commits", "refused"]
      drop 1 shown `are` ["refused TooLarge"]
      -- 371 choices of 11 tokens, 3 + 6 tokens around them, and 6 or 7 more: 4,096 and 4,097
      let choices more = replicateM_ 371 (when' true (writeVar x 1)) >> more >> writeVar x (-1)
          most = choices (newVar true >> newVar true)
      fmap (const ()) (render most) `is` Right ()
      render (choices (writeVar x 1 >> newVar true)) `is` Left TooLarge
      answers [either show id (render most)] >>= \it -> map (takeWhile (/= ' ')) it `is` ["commits"]
  , test "no end" $ do
      let forever' = writeVar x 1 >> forever' :: Block ()
          deep = catchInt deep (\_ -> pure ()) :: Block ()
          wide = retry `orElse` wide :: Block ()
          left' = left' `orElse` retry :: Block ()
          sum' = 1 + sum' :: Exp Int
      forM_ [forever', deep, wide, left', writeVar x sum'] (\it -> render it `is` Left TooLarge)
  , test "types" $ do
      let chain v = newVar v
          eight = chain (1 :: Exp Int) >>= chain >>= chain >>= chain >>= chain >>= chain >>= chain >>= chain
      fmap (const ()) (render eight) `is` Right ()
      fmap (const ()) (render (eight >>= chain)) `is` Right ()
      fmap (const ()) (render (eight >>= chain >>= chain)) `is` Left TypeTooDeep
      let text = either show id (render (eight >>= chain))
      answers [text] >>= \it -> map (takeWhile (/= ' ')) it `is` ["commits"]
  ]
  where
    names' = map (\name -> either (const False) (const True) (render (readVar (variable name 1))))
    -- What the program prints of texts that it tries, over x : Int = 0.
    answers tried = do
      (_, out, _) <- runOnce program' ["run"] (Bytes.pack (unlines ("tvar x : Int = 0" : map ("try " ++) tried)))
      pure (drop 1 (map Bytes.unpack (Bytes.lines out)))
