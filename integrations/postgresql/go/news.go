package postgresql

import (
	"context"
	"database/sql"

	squall "sumelgos.example/squall/bindings/go"
)

// learn tells the router what a partition knows: the course, and what was loaded there.
func learn(ctx context.Context, db *sql.DB, router *squall.Router) error {
	rows, err := db.QueryContext(ctx, "select number, issue, lo, edge from squall.news()")
	if err != nil {
		return err
	}
	defer rows.Close()
	var course *squall.Course
	for rows.Next() {
		var number uint32
		var issue []byte
		var lo, edge sql.NullInt64
		if err := rows.Scan(&number, &issue, &lo, &edge); err != nil {
			return err
		}
		if course == nil {
			// All rows have the same issue.
			if course, err = hear(router, issue); err != nil {
				return err
			}
			defer course.Close()
		}
		if lo.Valid && number == course.Number() {
			if err := loaded(router, course, rankOf(lo.Int64), rankOf(edge.Int64)); err != nil {
				return err
			}
		}
	}
	return rows.Err()
}

// hear tells the router of a course, if there is an issue of one, and opens the course by which it routes then.
func hear(router *squall.Router, issue []byte) (*squall.Course, error) {
	if issue != nil {
		if err := router.Hear(issue); err != nil {
			return nil, err
		}
	}
	return router.Course()
}

// loaded tells the router that the move that begins at `lo` was loaded up to the edge.
func loaded(router *squall.Router, course *squall.Course, lo, edge squall.Rank) error {
	for _, move := range course.Moves() {
		if move.Lo == lo {
			return router.Loaded(course.Number(), move.Sub, move.Dest, lo, edge)
		}
	}
	return nil
}

// rankOf is the rank of a place. A place is the rank less 2^63, since bigint has a sign.
func rankOf(place int64) squall.Rank {
	return squall.Rank(uint64(place) ^ 1<<63)
}
