-- What bench/console asks of the scheduler, on GHC's STM: a thread for each block that waits, on one core. Each line that it
-- prints is a figure's name, then microseconds by the clock and by the processor, for each block; of memory, bytes.
--
-- A thread that yields goes behind all that were woken before: when it goes on, they have run and wait again. So that none
-- of them is interrupted, bench/console runs it with time slices of a thousand seconds.
module Main (main) where

import Control.Concurrent
import Control.Concurrent.STM
import Control.Exception (evaluate)
import Control.Monad
import Data.Array
import Data.IORef
import GHC.Clock (getMonotonicTimeNSec)
import GHC.Stats
import System.CPUTime
import System.Environment (getArgs)
import System.Mem (performMajorGC)
import Text.Printf

increment :: TVar Int -> STM ()
increment x = do
  a <- readTVar x
  writeTVar x $! a + 1

-- Waits for a value that nobody writes.
waits :: TVar Int -> STM ()
waits x = do
  a <- readTVar x
  check (a < 0)

-- Prints what the best of three runs takes for each of `count` blocks.
figure :: String -> Int -> IO () -> IO ()
figure name count work = do
  (processor, clock) <- minimum <$> replicateM 3 once
  printf "%s\t%.4f\t%.4f\n" name (clock / fromIntegral count) (processor / fromIntegral count)
  where
    once :: IO (Double, Double)
    once = do
      clock <- getMonotonicTimeNSec
      processor <- getCPUTime
      work
      ended <- getCPUTime
      now <- getMonotonicTimeNSec
      pure (fromIntegral (ended - processor) / 1000000, fromIntegral (now - clock) / 1000)

declared :: Int -> IO (Array Int (TVar Int))
declared count = replicateM count (newTVarIO 1) >>= evaluate . listArray (0, count - 1)

-- So many threads that wait, and the bytes that each takes.
waiting :: Int -> (Int -> TVar Int) -> IO ()
waiting count variable = do
  before <- live
  forM_ [1 .. count] $ \number -> forkIO (atomically (waits (variable number)))
  yield
  after <- live
  printf "bytes\t%d\n" ((after - before) `div` count)

live :: IO Int
live = performMajorGC >> fromIntegral . gcdetails_live_bytes . gc <$> getRTSStats

increments :: Int -> Int -> IO ()
increments count variables = do
  xs <- declared variables
  figure "increment" count $ replicateM_ count $ atomically (increment (xs ! 0))
  figure "increment in a thread of its own" count $ replicateM_ count $ forkIO (atomically (increment (xs ! 0))) >> yield
  kept xs

woken :: Int -> Int -> Int -> IO ()
woken times count variables = do
  xs <- declared variables
  waiting count (xs !)
  figure "nobody" times $ replicateM_ times $ atomically (increment (xs ! 0)) >> yield
  figure "one" times $ forM_ [1 .. times] $ \number -> atomically (increment (xs ! (number * 61 `mod` count + 1))) >> yield
  kept xs

herd :: Int -> Int -> Int -> IO ()
herd times count variables = do
  xs <- declared variables
  waiting count (const (xs ! 0))
  figure "herd" (times * count) $ replicateM_ times $ atomically (increment (xs ! 0)) >> yield
  kept xs

-- A variable that nobody holds would end the threads that wait on it.
kept :: Array Int (TVar Int) -> IO ()
kept xs = forM_ [0, snd (bounds xs)] $ \number -> readTVarIO (xs ! number) >>= evaluate

-- Runs blocks in threads of their own until so many have ended.
settle :: Int -> IO [STM ()] -> IO ()
settle count made = figure "settle" count $ do
  blocks <- made
  ended <- newIORef (0 :: Int)
  forM_ blocks $ \block -> forkIO (atomically block >> atomicModifyIORef' ended (\n -> (n + 1, ())))
  let others = do
        yield
        now <- readIORef ended
        when (now < count) others
  others

chained :: Int -> IO [STM ()]
chained count = do
  x <- newTVarIO (0 :: Int)
  let waitsFor n next = do
        a <- readTVar x
        check (a == n)
        next
  pure ([waitsFor (count - t) (writeTVar x (count + 1 - t)) | t <- [1 .. count]] ++ replicate 2 (waitsFor 999 (pure ())))

main :: IO ()
main = do
  asked <- getArgs
  case asked of
    ["increments", count, variables] -> increments (read count) (read variables)
    ["woken", times, count, variables] -> woken (read times) (read count) (read variables)
    ["herd", times, count, variables] -> herd (read times) (read count) (read variables)
    ["chained", count] -> settle (read count) (chained (read count))
    ["own", count] -> settle (read count) (map increment <$> replicateM (read count) (newTVarIO 1))
    ["one", count] -> settle (read count) (newTVarIO 1 >>= \x -> pure (replicate (read count) (increment x)))
    _ -> fail "increments, woken, herd, chained, own or one"
